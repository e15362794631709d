"""Text and XML translated into each other by a stylesheet.

A sheet is read and checked once, when it is opened:

>>> import xsugar
>>> sheet = xsugar.Sheet("@leiden2")
>>> xml = sheet.to_xml("<=\\n1. [αβ] .2\\n=>\\n")
>>> print(xml, end="")
<ab>
<lb n="1"/><supplied reason="lost">αβ</supplied> <gap quantity="2" reason="illegible" unit="character"/>
</ab>
>>> sheet.to_text(xml)
'<=\\n1. [αβ] .2\\n=>\\n'

What is refused is an exception, which says where and why:

>>> sheet.to_xml("<=\\n1. [αβ\\n=>\\n")
Traceback (most recent call last):
...
xsugar.errors.ForeignError: line 2, column 7: expected ...

A document is a `str` or `bytes`, and its answer is of the same type.
"""
from xsugar.errors import (
    Error,
    ForeignError,
    NotUtf8Error,
    NotXmlError,
    OutlineError,
    ScriptError,
    SheetError,
    SuspectError,
    TooLongError,
)
from xsugar.sheet import Ran, Sheet, run

__version__ = "1.0.0"
__all__ = [
    "Error",
    "ForeignError",
    "NotUtf8Error",
    "NotXmlError",
    "OutlineError",
    "Ran",
    "ScriptError",
    "Sheet",
    "SheetError",
    "SuspectError",
    "TooLongError",
    "run",
]
