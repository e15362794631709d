"""What is refused, as exceptions."""
import re

_QUOTED = r'"((?:[^"\\]|\\.)*)"'
_SHOWN = {"n": "\n", "t": "\t", "r": "\r"}


def unquoted(shown):
    """Returns the characters of a word as reports show it.

    >>> unquoted('a\\\\n\\\\u{E9}')
    'a\\né'
    """

    def character(match):
        return chr(int(match[2], 16)) if match[2] else _SHOWN.get(match[1], match[1])

    return re.sub(r"\\(u\{([0-9A-Fa-f]+)\}|.)", character, shown)


class Error(Exception):
    """A refusal: its `status`, and the `report` that the program prints for it."""

    def __init__(self, message, status, report):
        super().__init__(message)
        self.status, self.report = status, report


class SheetError(Error):
    """The sheet is not accepted. `byte`, `line` or `weight` is where the report has one.

    >>> import xsugar
    >>> xsugar.Sheet("xsugar-1\\nstart s\\nt : = <s/>\\n")
    Traceback (most recent call last):
    ...
    xsugar.errors.SheetError: sheet: line 2: start is not a nonterminal
    """

    byte = line = weight = None


class SuspectError(SheetError):
    """The sheet may be ambiguous.

    `side` and `name` are those of a production, and `lines` its line; or two lines of productions
    that share the one word of `words`. Where the production can be cut in two ways after `cut` items,
    `words` are three.

    >>> import xsugar
    >>> try:
    ...     xsugar.Sheet('xsugar-1\\nstart s\\nterminal w = /[a-z]+/\\n'
    ...                  's : "a" = <s/>\\ns : [w x] = <t>[w x]</t>\\n')
    ... except xsugar.SuspectError as error:
    ...     print(error.side, error.name, error.lines, error.cut, error.words)
    text s (4, 5) None ('a',)
    """

    def __init__(self, message, status, report):
        super().__init__(message, status, report)
        head = re.match(r"suspect: (text|xml): ([^:]*): ", report, re.I)
        self.side, self.name = (head[1].lower(), head[2]) if head else (None, None)
        said = report[head.end() :] if head else report
        plain = re.sub(_QUOTED, "", said)
        numbers = [int(it) for it in re.findall(r"\d+", plain)]
        two = re.match(r"lines \d+ and \d+", plain)
        self.lines = tuple(numbers[:2] if two else numbers[:1])
        self.cut = None if two or len(numbers) < 2 else numbers[1]
        self.words = tuple(unquoted(it) for it in re.findall(_QUOTED, said))


class ForeignError(Error):
    """The document is not of the sheet's language.

    The first `symbols` symbols begin some document of it, and what stands at `line` and `column`
    does not fit; of a text, one of the ranges of characters of `expected` does.

    >>> import xsugar
    >>> sheet = xsugar.Sheet('xsugar-1\\nstart s\\nterminal d = /[0-9]/\\n'
    ...                      's : "(" [d a] ")" = <s a=[d a]/>\\n')
    >>> try:
    ...     sheet.to_xml("(3]")
    ... except xsugar.ForeignError as error:
    ...     print(error, error.symbols, error.line, error.column, error.expected)
    line 1, column 3: expected ")" 2 1 3 ((')', ')'),)
    """

    def __init__(self, message, status, report, symbols, line, column, expected):
        super().__init__(message, status, report)
        self.symbols, self.line, self.column = symbols, line, column
        self.expected = expected


class NotXmlError(Error):
    """The document is not XML of the profile; what stands at `line` and `column` is not legal."""

    def __init__(self, message, status, report, characters, line, column):
        super().__init__(message, status, report)
        self.characters, self.line, self.column = characters, line, column


class NotUtf8Error(Error):
    """The document is not UTF-8: its first `byte` bytes are."""

    def __init__(self, message, status, report, byte):
        super().__init__(message, status, report)
        self.byte = byte


class TooLongError(Error):
    """The document has more than 1,048,576 bytes."""


class OutlineError(Error):
    """The document is no outline; `line` is the first that does not fit."""

    def __init__(self, message, status, report, line):
        super().__init__(message, status, report)
        self.line = line


class ScriptError(OutlineError):
    """The document is no edit script; `line` is the first that is no request."""
