"""JSON documents: compact texts, files, and reading member by member with faults that name the member."""

from __future__ import annotations

import codecs
import json
import sys
from contextlib import contextmanager
from decimal import Decimal
from math import isfinite
from pathlib import Path
from typing import Any, Callable, Iterator, Mapping, Sequence, TypeVar

from purvelj.errors import DocumentError, FileError

T = TypeVar("T")

#: What Python's codecs are told to do with surrogates where ``encoded`` encodes.
AS_SENT = "purvelj.as_sent"


def compact(value: object) -> str:
    """The compact JSON text of a value, with the members of objects in byte order of their names."""
    return json.dumps(value, sort_keys=True, separators=(",", ":"), ensure_ascii=False)


def parse(text: str, source: str) -> Any:
    """The value that a JSON text holds; numbers with a fraction or an exponent, and ``-0``, become ``Decimal``.

    ``source`` names the text in the ``FileError`` that is raised where it is no JSON.
    """
    # Most texts have no -0, and json reads them faster by itself.
    whole_number = _whole_number if "-0" in text else None
    try:
        return json.loads(text, parse_float=_decimal, parse_int=whole_number, parse_constant=_refuse_constant)
    except RecursionError:
        raise FileError(f"{source}: not JSON that can be read: it is nested too deeply") from None
    except ValueError as fault:
        raise FileError(f"{source}: not JSON: {_where_it_breaks(text, fault)}") from None


def source_of(path: str | Path) -> str:
    """What a path that is read is called in messages: standard input where it is ``-``."""
    return "standard input" if str(path) == "-" else str(path)


def read_bytes(path: str | Path) -> bytes:
    """The bytes of a file, or of standard input where the path is ``-``."""
    try:
        if str(path) != "-":
            return Path(path).read_bytes()
        if sys.stdin is None:
            raise FileError("standard input: can't be read: it is closed")
        return sys.stdin.buffer.read()
    except OSError as fault:
        raise FileError(f"{source_of(path)}: can't be read: {fault.strerror or fault}") from None


def decoded(data: bytes, source: str) -> str:
    """The text that bytes are in UTF-8; ``FileError``, which names ``source`` and perhaps a line, where they are none."""
    try:
        return data.decode("utf-8")
    except UnicodeDecodeError as fault:
        line = data.count(b"\n", 0, fault.start) + 1
        where = f"{source}, line {line}" if b"\n" in data else source
        raise FileError(f"{where}: not a text in UTF-8") from None


def decoded_lines(data: bytes) -> str:
    """The text of lines for a session, which may not be UTF-8: it refuses those. ``encoded`` gives the same bytes again.

    Each byte that isn't UTF-8 is a surrogate in the text, as Python's ``surrogateescape`` has it.
    """
    return data.decode("utf-8", "surrogateescape")


def encoded(text: str) -> bytes:
    """The bytes of a text in UTF-8. What ``decoded_lines`` has read has the same bytes again.

    Any other surrogate becomes the three bytes that UTF-8 would have for it.
    """
    return text.encode("utf-8", AS_SENT)


def _surrogates_as_sent(fault: UnicodeError) -> tuple[bytes, int]:
    """The bytes of the surrogates that an encoder has come to, and where it goes on."""
    if not isinstance(fault, UnicodeEncodeError):
        raise fault
    found = fault.object[fault.start : fault.end]
    kinds = ("surrogateescape" if "\udc80" <= each <= "\udcff" else "surrogatepass" for each in found)
    return b"".join(each.encode("utf-8", kind) for each, kind in zip(found, kinds)), fault.end


codecs.register_error(AS_SENT, _surrogates_as_sent)


def lines_of(text: str) -> list[str]:
    """The lines of a text, the last of which may lack its newline; an empty text has none."""
    return text.removesuffix("\n").split("\n") if text else []


def read_text(path: str | Path) -> str:
    """The text of a file, or of standard input where the path is ``-``. Its line ends stay as they are."""
    return decoded(read_bytes(path), source_of(path))


def read_json(path: str | Path) -> Any:
    """The JSON value of a file, or of standard input where the path is ``-``."""
    return parse(read_text(path), source_of(path))


def write_text(path: str | Path, text: str) -> None:
    """Writes a file, or standard output where the path is ``-``."""
    if str(path) == "-":
        write_output(text)
        return
    try:
        Path(path).write_bytes(encoded(text))
    except OSError as fault:
        raise FileError(f"{path}: can't be written: {fault.strerror or fault}") from None


def write_output(text: str, flush: bool = False) -> None:
    """Writes a text to standard output, and at once where it is to be flushed; for faults see ``writing_output``."""
    if sys.stdout is None and text:
        raise FileError("standard output: can't be written: it is closed")
    with writing_output():
        if sys.stdout is not None:
            sys.stdout.write(text)
            if flush:
                sys.stdout.flush()


@contextmanager
def writing_output() -> Iterator[None]:
    """Where writing to standard output fails, ``FileError``; but ``BrokenPipeError`` where its reader has left."""
    try:
        yield
    except BrokenPipeError:
        raise
    except OSError as fault:
        raise FileError(f"standard output: can't be written: {fault.strerror or fault}") from None


class Document:
    """A JSON object that is being read.

    Each call reads one member, and raises ``DocumentError`` with the member's path where it isn't
    what it should be. A member that is ``null`` counts as absent. The path of a whole text is what
    names the text with a colon behind, as in ``export.json:``.
    """

    def __init__(self, value: object, path: str = "") -> None:
        if not isinstance(value, Mapping):
            raise DocumentError(path, f"{kind_of(value)} stands where an object should be")
        self._members: Mapping[str, object] = value
        self.path = path

    def __iter__(self) -> Iterator[str]:
        return (name for name in self._members if self.has(name))

    def has(self, name: str) -> bool:
        """Whether the member is there and isn't ``null``."""
        return self._members.get(name) is not None

    def members(self) -> Mapping[str, object]:
        """All members as they stand."""
        return self._members

    def path_of(self, name: str) -> str:
        """The path that names the member."""
        if not self.path:
            return name
        return f"{self.path} {name}" if self.path.endswith(":") else f"{self.path}.{name}"

    def raw(self, name: str) -> object:
        """The member as it stands, which has to be there."""
        if not self.has(name):
            raise DocumentError(self.path_of(name), "is missing")
        return self._members[name]

    def raw_or(self, name: str, default: object) -> object:
        """The member as it stands, or the default where it is absent."""
        return self._members[name] if self.has(name) else default

    def whole(self, name: str, least: int, most: int) -> int:
        """A whole number in a range whose both ends belong to it."""
        return whole(self.raw(name), self.path_of(name), least, most)

    def whole_or(self, name: str, default: int, least: int, most: int) -> int:
        """As ``whole``, with a default where the member is absent."""
        return self.whole(name, least, most) if self.has(name) else default

    def number(self, name: str, least: float, most: float) -> float:
        """A number, whole or not, in a range whose both ends belong to it."""
        value = self.raw(name)
        if isinstance(value, bool) or not isinstance(value, (int, float, Decimal)):
            raise DocumentError(self.path_of(name), f"{kind_of(value)} stands where a number should be")
        if not least <= value <= most:
            raise DocumentError(self.path_of(name), f"{value} is out of {least:g} to {most:g}")
        return float(value)

    def number_or(self, name: str, default: float, least: float, most: float) -> float:
        """As ``number``, with a default where the member is absent."""
        return self.number(name, least, most) if self.has(name) else default

    def text(self, name: str, most_bytes: int = 128) -> str:
        """A text of 1 to 128 bytes, or as many as are said."""
        value = self.raw(name)
        if not isinstance(value, str):
            raise DocumentError(self.path_of(name), f"{kind_of(value)} stands where a text should be")
        if not 1 <= len(value.encode("utf-8", "surrogatepass")) <= most_bytes:
            raise DocumentError(self.path_of(name), f"a text here has 1 to {most_bytes} bytes")
        return value

    def word(self, name: str, words: Sequence[str]) -> str:
        """One of the words."""
        value = self.text(name)
        if value not in words:
            raise DocumentError(self.path_of(name), f"{value!r} is none of {', '.join(words)}")
        return value

    def list(self, name: str, least: int = 0, most: int = 1 << 20) -> list[object]:
        """A list with at least and at most so many elements."""
        return elements(self.raw(name), self.path_of(name), least, most)

    def each(
        self, name: str, read: Callable[[object, str], T], least: int = 0, most: int = 1 << 20
    ) -> tuple[T, ...]:
        """A list whose elements are read one by one with their paths."""
        path = self.path_of(name)
        return tuple(read(item, f"{path}[{i}]") for i, item in enumerate(self.list(name, least, most)))

    def object(self, name: str) -> Document:
        """A member that is an object itself."""
        return Document(self.raw(name), self.path_of(name))

    def objects(self, name: str, least: int = 0, most: int = 1 << 20) -> tuple[Document, ...]:
        """A list of objects."""
        return self.each(name, Document, least, most)


def whole(value: object, path: str, least: int, most: int) -> int:
    """A whole number in a range whose both ends belong to it; ``path`` names it in a fault."""
    if isinstance(value, (float, Decimal)):
        raise DocumentError(path, f"{value} isn't written as a whole number")
    if isinstance(value, bool) or not isinstance(value, int):
        raise DocumentError(path, f"{kind_of(value)} stands where a whole number should be")
    if not least <= value <= most:
        raise DocumentError(path, f"{value} is out of {least} to {most}")
    return value


def elements(value: object, path: str, least: int, most: int) -> list[object]:
    """A list with at least and at most so many elements; ``path`` names it in a fault."""
    if not isinstance(value, (list, tuple)):
        raise DocumentError(path, f"{kind_of(value)} stands where a list should be")
    if not least <= len(value) <= most:
        raise DocumentError(path, f"{len(value)} elements, where {least} to {most} may be")
    return list(value)


def kind_of(value: object) -> str:
    """The kind of a JSON value in words."""
    kinds = {
        type(None): "null",
        bool: "a truth value",
        int: "a number",
        float: "a number",
        Decimal: "a number",
        str: "a text",
        list: "a list",
        tuple: "a list",
        dict: "an object",
    }
    return kinds.get(type(value), f"a {type(value).__name__}")


def _decimal(word: str) -> Decimal:
    try:
        return Decimal(word)
    except ArithmeticError:
        # Its exponent is beyond those of a Decimal. A desk reads it as 0 where it is so small, and else as no JSON.
        if not isfinite(float(word)):
            raise ValueError(f"{word} has an exponent that can't be read") from None
        return Decimal("0.0")


def _whole_number(word: str) -> int | Decimal:
    """A desk takes ``-0`` for no whole number."""
    return Decimal(word) if word == "-0" else int(word)


def _refuse_constant(word: str) -> Any:
    raise ValueError(f"{word} is no JSON number")


def _where_it_breaks(text: str, fault: ValueError) -> str:
    if not isinstance(fault, json.JSONDecodeError):
        return str(fault)
    if not text.strip():
        return "it is empty"
    if text.startswith("\ufeff"):
        return "it begins with a byte order mark"
    if fault.pos >= len(text.rstrip()) or fault.msg.startswith("Unterminated string"):
        return f"it ends in the middle, after {len(text)} characters"
    return f"{fault.msg}, line {fault.lineno}, column {fault.colno}"
