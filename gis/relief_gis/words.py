"""Messages in the words of who reads them: Python's arguments or QGIS's labels for the options of the command.

Modules that all three share name the command's options. Here these become what the caller has.
"""
from __future__ import annotations

import re
from contextlib import contextmanager
from typing import Iterator, Sequence, Tuple

from .errors import GisError

# Patterns of the command's words, and what stands for them; the first ones go before the later ones.
Vocabulary = Sequence[Tuple[str, str]]
PYTHON: Vocabulary = (
    (r"fewer (--)?decimals, or name the NODATA value", "a smaller scale=, or name the value without data by nodata="),
    (r"fewer --decimals", "a smaller scale="),
    (r"--decimals (\d|N)", r"scale=\1"),
    (r"give --codes \S+", "choose others by codes="),
    (r"fewer --workers", "fewer workers="),
    (r"give a larger --tile", "take a smaller array"),
    (r"take a larger window", "take a larger array"),
)


def in_words(text: str, vocabulary: Vocabulary) -> str:
    """A message in the words of a vocabulary."""
    for pattern, words in vocabulary:
        text = re.sub(pattern, words, text)
    return text


@contextmanager
def spoken_in(vocabulary: Vocabulary) -> Iterator[None]:
    """Gives errors that are raised within the words of a vocabulary."""
    try:
        yield
    except GisError as error:
        error.args = (in_words(str(error), vocabulary),)
        raise
