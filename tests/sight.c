// The view of one observer by the rules of docs/rules.md: each crossing of each line, one by one.
//
//     cc -O2 tests/sight.c -o sight
//     ./sight ROW COL EYE TARGET RADIUS < heights > view
//     ./sight ROW COL EYE rise RADIUS < heights > rise
//
// Reads the numbers of columns and rows and then the heights, of which -9999 is no data. Writes 1
// for a cell that is seen, 0 for one that is not and -9999 for no data, a line for each row. With
// `rise` writes the least target height at which a cell is seen, and -9999 where there is none.
#include <stdio.h>
#include <stdlib.h>
#include <string.h>

enum { NODATA = -9999, MOST_CELLS = 1 << 20, HIGHEST_TARGET = 1000000 };

static long cols, rows, heights[MOST_CELLS];

// The levels of an observer's eye and of a target.
struct ends {
    long eye, target;
};

// Whether one of the crossings blocks a line from the place `from`. It goes `steps` cells along one
// axis and `drift` along the other; neighbours lie `along` and `across` places apart in the list.
static int is_blocked(struct ends level, long from, long steps, long along, long drift,
                      long across) {
    for (long step = 1; step < steps; step++) {
        long part = (drift * step % steps + steps) % steps;
        long whole = (drift * step - part) / steps;
        long place = from + step * along + whole * across;
        // A cell of weight 0 takes no part, and may lie outside the grid.
        long near = heights[place], far = part ? heights[place + across] : near;
        if (near == NODATA || far == NODATA)
            continue;
        long ground = (steps - part) * near + part * far;
        if (ground > level.eye * (steps - step) + level.target * step)
            return 1;
    }
    return 0;
}

// The observer and the target are places, with their heights above the ground.
static int is_seen(long from, long eye, long to, long target, long radius) {
    long down = to / cols - from / cols, right = to % cols - from % cols;
    struct ends level = {heights[from] + eye, heights[to] + target};
    if (down * down + right * right > radius * radius)
        return 0;
    return !is_blocked(level, from, labs(right), right < 0 ? -1 : 1, down, cols) &&
           !is_blocked(level, from, labs(down), down < 0 ? -cols : cols, right, 1);
}

// The least target height at which a place is seen, by halves: what is seen stays seen as it rises.
static long rise(long from, long eye, long to, long radius) {
    if (!is_seen(from, eye, to, HIGHEST_TARGET, radius))
        return NODATA;
    long hidden = -1, seen = HIGHEST_TARGET;
    while (seen - hidden > 1) {
        long middle = (seen + hidden) / 2;
        if (is_seen(from, eye, to, middle, radius))
            seen = middle;
        else
            hidden = middle;
    }
    return seen;
}

static long number(const char *word) {
    return strtol(word, NULL, 10);
}

int main(int count, char **words) {
    if (count != 6 || scanf("%ld %ld", &cols, &rows) != 2 || cols * rows > MOST_CELLS)
        return 1;
    for (long place = 0; place < cols * rows; place++)
        if (scanf("%ld", &heights[place]) != 1)
            return 1;
    long from = number(words[1]) * cols + number(words[2]), eye = number(words[3]);
    long target = number(words[4]), radius = number(words[5]);
    int is_rise = strcmp(words[4], "rise") == 0;
    for (long to = 0; to < cols * rows; to++) {
        long value = heights[to] == NODATA ? NODATA
                     : is_rise             ? rise(from, eye, to, radius)
                                           : is_seen(from, eye, to, target, radius);
        printf("%ld%c", value, (to + 1) % cols ? ' ' : '\n');
    }
    return 0;
}
