"""What arguments may be that several modules take: times, words, texts and numbers. `BadArgument` says what was expected."""
from __future__ import annotations

import math
import numbers
import os
from collections.abc import Mapping, Set
from typing import Iterable, List, Optional, Sequence, Tuple, Union

from .errors import BadArgument

# a path, as a text or as one of pathlib's
AnyPath = Union[str, "os.PathLike[str]"]
# in seconds: what is longer than the system waits at a time is no limit
LONGEST = 2_000_000
# of a whole number: 4,000 digits; Python writes no more than 4,300
MOST_BITS = 13_287


def shown(value: object) -> str:
    """A value as a message shows it, cut where it is long."""
    try:
        text = repr(value)
    except Exception:  # as of a whole number of more digits than Python spells
        return f"a value of type {type(value).__name__}"
    return text if len(text) <= 60 else f"{text[:50]} .. (of type {type(value).__name__})"


def whole_number(value: object) -> Optional[int]:
    """A whole number of any kind, NumPy's too, as an int; None for any other value, True and False among them."""
    if isinstance(value, bool) or not isinstance(value, numbers.Integral):
        return None
    return int(value)


def read_number(word: str) -> Optional[int]:
    """The whole number that a word of an input is, also with zeros before it; None for any other word, and for a number of more
    than 20 digits, which is no number of lines."""
    digits = word.lstrip("0")
    return int(digits or "0") if word.isascii() and word.isdecimal() and len(digits) <= 20 else None


def checked_timeout(timeout: Optional[float]) -> Optional[float]:
    """Seconds as a limit of time, or None for no limit."""
    if timeout is None:
        return None
    if type(timeout) in (int, float) and 0 < timeout < LONGEST:
        return timeout
    is_number = isinstance(timeout, numbers.Real) and not isinstance(timeout, bool)
    if not is_number or not _is_finite(timeout) or timeout <= 0:
        raise BadArgument(f"timeout must be a positive number of seconds or None, not {shown(timeout)}")
    return float(timeout) if timeout < LONGEST else None


def _is_finite(number: float) -> bool:
    """Whether a number is one that a float can be."""
    try:
        return math.isfinite(number)
    except OverflowError:
        return False


def path_text(path: object) -> Optional[str]:
    """The text of a path; None for any other value, an empty text, or one that no file can have as its name."""
    try:
        text = os.fspath(path) if isinstance(path, (str, os.PathLike)) else None
        if not isinstance(text, str) or not text or "\0" in text:
            return None
        os.fsencode(text)  # fails for half of a surrogate pair
    except (TypeError, UnicodeEncodeError):  # a TypeError of an `__fspath__` that returns no text
        return None
    return text


def checked_memory(memory: Optional[int]) -> int:
    """Bytes as a limit of memory; 0 for None, which is no limit."""
    if memory is None:
        return 0
    number = whole_number(memory)
    if number is None or not 0 < number < 1 << 64:
        raise BadArgument(f"memory must be a positive number of bytes or None, not {shown(memory)}")
    return number


def checked_words(words: Sequence[str]) -> List[str]:
    """The words of a command line, which are texts without a zero character."""
    if type(words) is list and set(map(type, words)) == {str} and "\0" not in "".join(words):
        return words  # as those of the commands, at once
    expected = "the command line must be a list of strings, such as ['surfaces', '--coords', 'quad']"
    given = listed(words, expected)
    checked = [word for word in given if isinstance(word, str)]
    if len(checked) < len(given):
        raise BadArgument(f"{expected}, not {shown(words)}")
    if any("\0" in word for word in checked):
        raise BadArgument("an argument contains a null character")
    return checked


def joined(words: List[str]) -> bytes:
    """The words of a command line with a zero byte between each two."""
    return as_bytes("\0".join(words))


def as_bytes(text: str) -> bytes:
    """The bytes of a text; those that Python took for no characters are what they were."""
    if not isinstance(text, str):
        raise BadArgument(f"the input must be a string, not {shown(text)}")
    try:
        return text.encode("utf8", "surrogateescape")
    except UnicodeEncodeError as fault:
        raise BadArgument(f"the text contains a lone surrogate at index {fault.start}: {text[fault.start]!r}") from None


def plain(value: object) -> object:
    """An array of NumPy's, a column or a frame of pandas' as a list, or as a list of its rows; any other value as it is."""
    if hasattr(value, "dtype") and hasattr(value, "tolist"):
        return value.tolist()
    if hasattr(value, "dtypes") and hasattr(value, "to_numpy"):
        return plain(value.to_numpy())
    return value


def listed(values: object, expected: str) -> List[object]:
    """The values of a list, a tuple, an array or any other iterable with an order.

    expected: what is said of a value that is none of these
    """
    values = plain(values)
    if isinstance(values, (str, bytes, bytearray, Mapping, Set)) or not isinstance(values, Iterable):
        raise BadArgument(f"{expected}, not {shown(values)}")
    return list(values)


def whole_numbers(values: object, expected: str) -> Tuple[int, ...]:
    """The whole numbers of a list.

    expected: what is said of a value that is no such list
    """
    entries = tuple(listed(values, expected))
    if set(map(type, entries)) <= {int}:  # nearly always, and far quicker than to look at each
        return _short(entries)  # type: ignore[arg-type]
    checked = tuple(map(whole_number, entries))
    for entry, number in zip(entries, checked):
        if number is None:
            raise BadArgument(f"{expected}: {shown(entry)} is not a whole number{_integral(entry)}")
    return _short(checked)  # type: ignore[arg-type]


def _short(numbers_given: Tuple[int, ...]) -> Tuple[int, ...]:
    """Whole numbers, none of more digits than Python writes."""
    if max(map(int.bit_length, numbers_given), default=0) > MOST_BITS:
        raise BadArgument("a number is too long: it has more than 4,000 digits")
    return numbers_given


def _integral(entry: object) -> str:
    """What is added about a number that is whole by its value alone."""
    is_whole = isinstance(entry, float) and entry.is_integer()
    return "; convert an array with astype(int)" if is_whole else ""


def lines(values: object, name: str, example: str) -> str:
    """The lines of moves or steps, each a text.

    name: what they are called, as `moves`
    """
    expected = f"expected a list of {name}, such as [{example!r}]"
    texts = listed(values, expected)
    for text in texts:
        if not isinstance(text, str) or "\n" in text:
            raise BadArgument(f"{expected}; {shown(text)} is not one of them")
    return "".join(f"{text}\n" for text in texts)
