"""Sheets that are open, and what is done by them."""
from __future__ import annotations

import re
import threading
import unicodedata
from ctypes import byref
from typing import NamedTuple, Optional, Sequence, TypeVar, Union

from xsugar import places
from xsugar.errors import (
    Error,
    ForeignError,
    NotUtf8Error,
    NotXmlError,
    OutlineError,
    ScriptError,
    SheetError,
    SuspectError,
    TooLongError,
    unquoted,
)
from xsugar.library import FORMS, LIBRARY, SIDES, Bytes, Handle, Told, called

Document = TypeVar("Document", str, bytes)
_SHIPPED = {"@leiden": "xsugar_sheet_leiden", "@leiden2": "xsugar_sheet_leiden2"}
_FOREIGN, _SHEET_BAD, _SHEET_ILL, _HEAVY, _SUSPECT, _NOT_UTF8, _NOT_XML = 1, 3, 4, 5, 6, 7, 8
_DOC_LONG, _SCRIPT_BAD, _OUTLINE_BAD = 14, 15, 16
_RANGE = re.compile(r'"((?:[^"\\]|\\.)*)"(?:-"((?:[^"\\]|\\.)*)")?')


def _encoded(document: Union[str, bytes]) -> bytes:
    return document.encode() if isinstance(document, str) else bytes(document)


def _report(told: Told) -> str:
    return told.bytes.decode().rstrip("\n")


def _sheet_error(told: Told) -> SheetError:
    kind = SuspectError if told.kind == _SUSPECT else SheetError
    error = kind(_report(told), told.status, _report(told))
    name = {_SHEET_BAD: "byte", _SHEET_ILL: "line", _HEAVY: "weight"}.get(told.kind)
    if name:
        setattr(error, name, told.place)
    return error


def _quoted(text: str) -> str:
    plain = re.sub(r'[^\x20-\x7e]|["\\]', lambda it: f"\\u{{{ord(it[0]):X}}}", text)
    return f'"{plain}"'


def _visible(character: str) -> str:
    """Returns a character in quotes; one that cannot be seen alone as a sheet may write it."""
    hidden = not character.isprintable() or unicodedata.category(character)[0] == "M"
    return _quoted(character) if hidden or character in '"\\' else f'"{character}"'


def _shown(ranges: Sequence[tuple[str, str]]) -> str:
    """Returns ranges of characters as a message shows them.

    >>> print(_shown([("]", "]"), ("\u0370", "\u03ff"), ("\u0300", "\u0300")]))
    "]" "Ͱ"-"Ͽ" "\\u{300}"
    """
    words = [_visible(a) if a == b else f"{_visible(a)}-{_visible(b)}" for a, b in ranges]
    return " ".join(words) or "the end"


class Sheet:
    """A sheet that was read, checked and opened.

    It is the text of a sheet, or the name of one that is included, `@leiden` or `@leiden2`. What is
    not accepted is a `SheetError`. Calls by one sheet wait for each other; different sheets are used
    by several threads at once.

    >>> with Sheet("@leiden2") as sheet:
    ...     sheet.round_text("<=1. a =>")
    '<=\\n1. a\\n=>\\n'
    """

    def __init__(self, source: Union[str, bytes]) -> None:
        self._handle, self._lock = Handle(), threading.Lock()
        if isinstance(source, str) and source in _SHIPPED:
            told = called(_SHIPPED[source], byref(self._handle))
        else:
            data = _encoded(source)
            told = called("xsugar_sheet_open", data, len(data), byref(self._handle))
        if told.status:
            raise _sheet_error(told)

    @classmethod
    def from_file(cls, path: str) -> Sheet:
        """Opens the sheet that a file has."""
        with open(path, "rb") as it:
            return cls(it.read())

    def close(self) -> None:
        """Frees what is kept of the sheet; a call by it is a ValueError then."""
        with self._lock:
            LIBRARY.xsugar_sheet_close(byref(self._handle))

    def __enter__(self) -> Sheet:
        return self

    def __exit__(self, *_: object) -> None:
        self.close()

    def __del__(self) -> None:
        if getattr(self, "_handle", None) is not None and self._handle.is_open:
            LIBRARY.xsugar_sheet_close(byref(self._handle))

    def _called(self, name: str, data: bytes, *numbers: int) -> Told:
        with self._lock:
            if not self._handle.is_open:
                raise ValueError("the sheet is closed")
            return called(name, byref(self._handle), data, len(data), *numbers)

    def _done(self, name: str, document: Document, side: str, form: str, *numbers: int) -> Document:
        data = _encoded(document)
        told = self._called(name, data, *numbers)
        if told.status:
            raise self._error(told, data, side, form)
        return told.bytes.decode() if isinstance(document, str) else told.bytes

    def _error(self, told: Told, data: bytes, side: str, form: str) -> Error:
        report, status = _report(told), told.status
        if told.kind == _DOC_LONG:
            return TooLongError(report, status, report)
        if told.kind == _NOT_UTF8:
            return NotUtf8Error(report, status, report, told.place)
        if told.kind in (_OUTLINE_BAD, _SCRIPT_BAD):
            kind = OutlineError if told.kind == _OUTLINE_BAD else ScriptError
            return kind(report, status, report, told.place)
        document = data.decode()
        if told.kind == _NOT_XML:
            at = places.line_and_column(places.without_mark(document), told.place)
            return NotXmlError(f"line {at[0]}, column {at[1]}: not XML", status, report, told.place, *at)
        if told.kind == _FOREIGN:
            characters = places.in_form(document, form if side == "text" else "as-is")
            line, column = places.of_symbol(characters, side, told.place)
            expected = self.expected(characters, told.place) if side == "text" else None
            said = "not expected here" if expected is None else f"expected {_shown(expected)}"
            message = f"line {line}, column {column}: {said}"
            return ForeignError(message, status, report, told.place, line, column, expected)
        return Error(report, status, report)

    def to_xml(self, document: Document, form: str = "as-is") -> Document:
        """Translates a text, taken in a form, `as-is`, `nfc` or `nfd`, to XML."""
        return self._done("xsugar_to_xml", document, "text", form, FORMS[form])

    def to_text(self, document: Document) -> Document:
        """Translates XML to a text."""
        return self._done("xsugar_to_text", document, "xml", "as-is")

    def round_text(self, document: Document, form: str = "as-is") -> Document:
        """Puts a text into its normal spelling."""
        return self._done("xsugar_round_text", document, "text", form, FORMS[form])

    def round_xml(self, document: Document) -> Document:
        """Puts XML into its normal spelling."""
        return self._done("xsugar_round_xml", document, "xml", "as-is")

    def to_tree(self, document: Document, side: str = "text", form: str = "as-is") -> Document:
        """Returns the outline of the tree of a document of a side, `text` or `xml`."""
        return self._done("xsugar_to_tree", document, side, form, SIDES[side], FORMS[form])

    def from_tree(self, outline: Document, side: str = "xml") -> Document:
        """Returns the document of a side that has the tree of an outline."""
        return self._done("xsugar_from_tree", outline, "outline", "as-is", SIDES[side])

    def session(self, script: Document) -> Document:
        """Plays an edit script over a text that begins empty, and returns its answers."""
        return self._done("xsugar_session", script, "script", "as-is")

    def expected(self, text: str, symbols: int) -> Optional[tuple[tuple[str, str], ...]]:
        """Returns the ranges of characters that can come after so many characters of a text.

        None where these begin no document, or are too many to ask about.

        >>> Sheet("@leiden2").expected("<=", 1)
        (('=', '='),)
        """
        script = f"put 0 0 {_quoted(text[:symbols])}\nnext {symbols}\n".encode()
        told = self._called("xsugar_session", script)
        line = told.bytes.decode().rpartition("\nnext")
        if told.status or not line[1]:
            return None
        found = _RANGE.finditer(line[2])
        return tuple((unquoted(it[1]), unquoted(it[1] if it[2] is None else it[2])) for it in found)


class Ran(NamedTuple):
    """How a run of the program ended, and what it wrote, or reported where the status is not 0."""

    status: int
    output: bytes


def run(
    words: Sequence[str],
    sheet: Union[str, bytes] = b"",
    document: Union[str, bytes] = b"",
    certificate: Union[str, bytes] = b"",
) -> Ran:
    """Runs a command as the program does; its files are `sheet` and `certificate`.

    >>> run(["upgrade", "sheet"], "xsugar-1\\nstart s\\ns : = <s/>\\n").output.decode()
    'xsugar-2\\nstart s\\ns : = < s />\\n'
    """
    said = [_encoded(it) for it in words]
    array = (Bytes * max(len(said), 1))()
    kept = [(it + b"\0") for it in said]
    import ctypes

    for place, it in enumerate(kept):
        array[place].at = ctypes.cast(ctypes.c_char_p(it), ctypes.c_void_p).value
        array[place].length = len(it) - 1
    data = [_encoded(it) for it in (sheet, certificate, document)]
    told = called("xsugar_run", array, len(said), *(part for it in data for part in (it, len(it))))
    return Ran(told.status, told.bytes)
