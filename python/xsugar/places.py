"""From a number of symbols, characters or bytes to a line and a column of the document."""
import re
import unicodedata

NAMED = {"lt": "<", "gt": ">", "amp": "&", "apos": "'", "quot": '"'}
CHARACTER = re.compile(r"\r\n|&[^;]*;|.", re.S)
ATTRIBUTE = re.compile(r"""\s+([^\s=>/]+)\s*=\s*("[^"]*"|'[^']*')""")
PIECE = re.compile(
    r"""<!--.*?-->|<\?.*?\?>|<!\[CDATA\[(?P<section>.*?)]]>|</(?P<closed>[^\s>]+)\s*>"""
    r"""|<(?P<opened>[^\s>/]+)(?P<attributes>(?:\s+[^\s=>/]+\s*=\s*(?:"[^"]*"|'[^']*'))*)\s*"""
    r"""(?P<empty>/?)>"""
    r"""|(?P<character>\r\n|&[^;]*;|.)""",
    re.S,
)


def line_and_column(document, at):
    """Returns the line and the column, from 1, of a place of the document.

    >>> line_and_column("ab\\ncd", 4)
    (2, 2)
    """
    return document.count("\n", 0, at) + 1, at - document.rfind("\n", 0, at)


def _in_tag(tag):
    """Yields where each symbol of a start tag or an empty tag is written."""
    yield tag.start()
    at = tag.start("attributes")
    for it in sorted(ATTRIBUTE.finditer(tag["attributes"]), key=lambda it: it[1].encode()):
        value, begin = it[2][1:-1], at + it.start(2) + 1
        yield at + it.start(1)
        yield from (begin + c.start() for c in CHARACTER.finditer(value))
        yield begin + len(value)
    if tag["empty"]:
        yield tag.end() - 2


def _in_xml(document):
    """Yields where each symbol of an XML document is written."""
    depth = 0
    for it in PIECE.finditer(document):
        if it["opened"]:
            yield from _in_tag(it)
            depth += not it["empty"]
        elif it["closed"]:
            yield it.start()
            depth -= 1
        elif it["section"]:
            found = re.compile("\r\n|.", re.S).finditer(document, *it.span("section"))
            yield from (c.start() for c in found)
        elif it["character"] and depth:
            yield it.start()


def without_mark(document):
    """Returns the document without the byte order mark at its front."""
    return document[1:] if document.startswith("\ufeff") else document


def in_form(document, form):
    """Returns the characters of a text, as they are counted."""
    document = without_mark(document)
    return document if form == "as-is" else unicodedata.normalize(form.upper(), document)


def of_symbol(document, side, symbols):
    """Returns the line and column of the first symbol after so many; the document has no mark.

    >>> of_symbol("<p><y>7</y></p>", "xml", 4)
    (1, 12)
    """
    places = range(len(document)) if side == "text" else list(_in_xml(document))
    at = places[symbols] if symbols < len(places) else len(document)
    return line_and_column(document, at)
