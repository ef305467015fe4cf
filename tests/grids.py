"""The texts that the program reads and writes, for the scripts beside this one."""


def input_header(cols, rows):
    return f"ncols {cols}\nnrows {rows}\nxllcorner 0\nyllcorner 0\ncellsize 1\n"


def output_header(cols, rows):
    return (f"ncols         {cols}\nnrows         {rows}\nxllcorner     0\n"
            "yllcorner     0\ncellsize      1\nNODATA_value  -9999\n")


def with_header(header, lines):
    return (header(len(lines[0].split()), len(lines)) + "\n".join(lines) + "\n").encode()


def grid_text(lines):
    """What is read: a header and lines of words."""
    return with_header(input_header, lines)


def map_text(lines):
    """What is written of a grid without a NODATA word."""
    return with_header(output_header, lines)
