// Refuses a process memory, threads, reads and writes, and notes what it asked for.
//
//     cc -O2 -shared -fPIC tests/refuse.c -o refuse.so
//     LD_PRELOAD=$PWD/refuse.so MEMORY_REFUSED=7 ./relief fill < examples/bowl.asc
//
// Calls are counted from 1. In place of a number N, N+ stands for each call from the Nth on.
//
//     MEMORY_REFUSED=N        request N for memory is refused
//     THREADS_REFUSED=N       thread N is not started
//     READS_FAIL=N            read N of standard input fails
//     READS_INTERRUPTED=N     read N is interrupted
//     READS_TAKE=BYTES        a read takes at most so many bytes
//     WRITES_FAIL=N           write N to standard output fails; WRITES_INTERRUPTED, WRITES_TAKE likewise
//     WRITES_TAKE_NONE=N      write N answers 0
//     OUTPUT_HOLDS=BYTES      standard output is full after so many bytes
//     EVENTS=FILE             a letter for each call: m memory, t a thread started, j joined, d let go; r a read of
//                             standard input, w a write to standard output, e to standard error; a capital where it
//                             was refused
//
// The file is mapped, so it has the letters also where the process ends by `_exit` or a signal. What the dynamic
// loader and the start of the process ask for is not counted.
#define _GNU_SOURCE
#undef _FORTIFY_SOURCE
#include <dlfcn.h>
#include <errno.h>
#include <fcntl.h>
#include <limits.h>
#include <pthread.h>
#include <stdatomic.h>
#include <stddef.h>
#include <stdlib.h>
#include <sys/mman.h>
#include <unistd.h>

enum { MOST_EVENTS = 1 << 20 };

// The C library's own names. Looking up the usual ones would take memory.
void *__libc_malloc(size_t size);
void *__libc_calloc(size_t count, size_t size);
void *__libc_realloc(void *old, size_t size);
void *__libc_memalign(size_t alignment, size_t size);
ssize_t __read(int file, void *to, size_t size);
ssize_t __write(int file, const void *from, size_t size);

static int (*start_thread)(pthread_t *, const pthread_attr_t *, void *(*)(void *), void *);
static int (*join_thread)(pthread_t, void **);
static int (*detach_thread)(pthread_t);

struct turns {
    long first, last;
};

struct calls {
    atomic_long count;
    struct turns refused, interrupted;
};

static struct calls memory, threads, reads, writes;
static struct turns writes_of_none;
static long most_read, most_written, room;

// Null until the process has been started.
static char *events;
static atomic_long event_count;

static long number_of(const char *name) {
    const char *text = getenv(name);
    return text ? atol(text) : LONG_MAX;
}

static struct turns turns_of(const char *name) {
    const char *text = getenv(name);
    if (!text)
        return (struct turns){1, 0};
    char *end;
    long first = strtol(text, &end, 10);
    return (struct turns){first, *end == '+' ? LONG_MAX : first};
}

static char *shared_file(const char *path) {
    int file = path ? open(path, O_RDWR | O_CREAT | O_TRUNC, 0600) : -1;
    if (file < 0 || ftruncate(file, MOST_EVENTS) != 0)
        return NULL;
    char *shared = mmap(NULL, MOST_EVENTS, PROT_READ | PROT_WRITE, MAP_SHARED, file, 0);
    close(file);
    return shared == MAP_FAILED ? NULL : shared;
}

__attribute__((constructor)) static void begin(void) {
    static char unshared[MOST_EVENTS];
    memory.refused = turns_of("MEMORY_REFUSED");
    threads.refused = turns_of("THREADS_REFUSED");
    reads.refused = turns_of("READS_FAIL");
    reads.interrupted = turns_of("READS_INTERRUPTED");
    writes.refused = turns_of("WRITES_FAIL");
    writes.interrupted = turns_of("WRITES_INTERRUPTED");
    writes_of_none = turns_of("WRITES_TAKE_NONE");
    most_read = number_of("READS_TAKE");
    most_written = number_of("WRITES_TAKE");
    room = number_of("OUTPUT_HOLDS");
    start_thread = dlsym(RTLD_NEXT, "pthread_create");
    join_thread = dlsym(RTLD_NEXT, "pthread_join");
    detach_thread = dlsym(RTLD_NEXT, "pthread_detach");
    char *shared = shared_file(getenv("EVENTS"));
    events = shared ? shared : unshared;
}

static int has_turn(struct turns turns, long number) {
    return turns.first <= number && number <= turns.last;
}

static void note(char event) {
    if (!events)
        return;
    long place = atomic_fetch_add(&event_count, 1);
    if (place < MOST_EVENTS)
        events[place] = event;
}

static size_t least(size_t size, long most) {
    return size < (size_t)most ? size : (size_t)most;
}

// Counts a call: the error with which it is refused, or 0.
static int refusal_of(struct calls *calls, int refusal) {
    if (!events)
        return 0;
    long number = atomic_fetch_add(&calls->count, 1) + 1;
    int error = has_turn(calls->refused, number) ? refusal : has_turn(calls->interrupted, number) ? EINTR : 0;
    if (error)
        errno = error;
    return error;
}

static int memory_is_refused(void) {
    return refusal_of(&memory, ENOMEM);
}

static void *noted(void *made) {
    note(made ? 'm' : 'M');
    return made;
}

void *malloc(size_t size) {
    return noted(memory_is_refused() ? NULL : __libc_malloc(size));
}

void *calloc(size_t count, size_t size) {
    return noted(memory_is_refused() ? NULL : __libc_calloc(count, size));
}

void *realloc(void *old, size_t size) {
    return noted(memory_is_refused() ? NULL : __libc_realloc(old, size));
}

void *memalign(size_t alignment, size_t size) {
    return noted(memory_is_refused() ? NULL : __libc_memalign(alignment, size));
}

void *aligned_alloc(size_t alignment, size_t size) {
    return memalign(alignment, size);
}

int posix_memalign(void **found, size_t alignment, size_t size) {
    void *made = memalign(alignment, size);
    if (made)
        *found = made;
    return made ? 0 : ENOMEM;
}

int pthread_create(pthread_t *thread, const pthread_attr_t *attributes, void *(*run)(void *), void *with) {
    int error = refusal_of(&threads, EAGAIN);
    if (!error)
        error = start_thread(thread, attributes, run, with);
    note(error ? 'T' : 't');
    return error;
}

int pthread_join(pthread_t thread, void **result) {
    int error = join_thread(thread, result);
    note(error ? 'J' : 'j');
    return error;
}

int pthread_detach(pthread_t thread) {
    note('d');
    return detach_thread(thread);
}

ssize_t read(int file, void *to, size_t size) {
    if (file != STDIN_FILENO)
        return __read(file, to, size);
    ssize_t taken = refusal_of(&reads, EIO) ? -1 : __read(file, to, least(size, most_read));
    note(taken < 0 ? 'R' : 'r');
    return taken;
}

static ssize_t written(const void *from, size_t size) {
    if (refusal_of(&writes, EIO))
        return -1;
    if (has_turn(writes_of_none, writes.count))
        return 0;
    if (room > 0)
        return __write(STDOUT_FILENO, from, least(least(size, most_written), room));
    errno = ENOSPC;
    return -1;
}

ssize_t write(int file, const void *from, size_t size) {
    if (file != STDOUT_FILENO) {
        if (file == STDERR_FILENO)
            note('e');
        return __write(file, from, size);
    }
    ssize_t taken = written(from, size);
    note(taken > 0 ? 'w' : 'W');
    room -= taken > 0 ? taken : 0;
    return taken;
}
