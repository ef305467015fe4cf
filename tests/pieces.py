"""Texts that come to the program in pieces, for the scripts beside this one."""
import array
import fcntl
import os
import subprocess
import termios


def bytes_in_pipe(pipe):
    count = array.array("i", [0])
    fcntl.ioctl(pipe, termios.FIONREAD, count)
    return count[0]


def outcome_of_pieces(pieces, command, seconds=300):
    """Status, output and errors of a program that gets a piece once it has read the one before."""
    with subprocess.Popen(command, stdin=subprocess.PIPE, stdout=subprocess.PIPE,
                          stderr=subprocess.PIPE) as child:
        try:
            for piece in pieces:
                os.write(child.stdin.fileno(), piece)
                while bytes_in_pipe(child.stdin) and child.poll() is None:
                    os.sched_yield()
        except BrokenPipeError:
            pass
        output, errors = child.communicate(timeout=seconds)
    return child.returncode, output, errors
