"""Tests the installed package: its doctests, examples of the pages that are named, and the commands."""
import doctest
import importlib
import json
import os
import re
import subprocess
import sys

import xsugar

PAIR = ('xsugar-1\nstart s\nterminal d = /[0-9]/\nignorable w = / */ ""\n'
        's : "(" [d a] [w] "," [d b] ")" = <p><y>[d b]</y><x>[d a]</x></p>\n')
XML = b"<p><y>7</y><x>3</x></p>\n"
passed = failed = 0


def check(right, what):
    global passed, failed
    passed, failed = passed + bool(right), failed + (not right)
    if not right:
        print("failed:", what)


def command(*words, document=b""):
    run = subprocess.run([sys.executable, "-m", "xsugar", *words], input=document, capture_output=True)
    return run.returncode, run.stdout, run.stderr.decode()


def doctests():
    for name in ("xsugar", "xsugar.errors", "xsugar.places", "xsugar.sheet"):
        module = importlib.import_module(name)
        found = doctest.testmod(module, optionflags=doctest.ELLIPSIS | doctest.IGNORE_EXCEPTION_DETAIL)
        check(found.attempted and not found.failed, f"doctests of {name}")


def example(path):
    with open(path, encoding="utf-8") as it:
        blocks = re.findall(r"(?:^    .*\n)*^    import xsugar\n(?:^    .*\n|^\n(?=    ))*", it.read(), re.M)
    check(blocks, f"{path} has an example")
    for block in blocks:
        exec(re.sub("^    ", "", block, flags=re.M), {})


def commands():
    with open("pair.xsugar", "w") as it:
        it.write(PAIR)
    for name, text in (("a.txt", "(3,7)"), ("b.txt", "(1,2)"), ("c.txt", "(3\n,7]")):
        with open(name, "w") as it:
            it.write(text)
    check(command("--version") == (0, b"xsugar 1.0.0\n", ""), "version")
    check(command("--help")[0] == 0, "help")
    check(command("to-xml")[0] == 5, "usage")
    check(command("check", "pair.xsugar") == (0, b"pair.xsugar: accepted\n", ""), "check")
    check(command("to-xml", "pair.xsugar", document=b"(3,7)") == (0, XML, ""), "standard input")
    check(command("to-xml", "pair.xsugar", "-", document=b"(3,7)") == (0, XML, ""), "-")
    check(command("to-text", "pair.xsugar", document=XML) == (0, b"(3,7)", ""), "to-text")
    check(command("round", "pair.xsugar", "--side", "xml", document=XML) == (0, XML, ""), "round")
    outline = command("to-tree", "pair.xsugar", "a.txt")[1]
    check(command("from-tree", "pair.xsugar", "--side", "xml", document=outline) == (0, XML, ""), "outlines")
    both = command("to-xml", "pair.xsugar", "a.txt", "b.txt", "--jobs", "2")
    check(both == (0, XML + XML.replace(b"7", b"2").replace(b"3", b"1"), ""), "two files at once")
    check(command("to-xml", "pair.xsugar", "a.txt", "-o", "a.xml") == (0, b"", ""), "-o")
    os.mkdir("one")
    check(command("to-xml", "pair.xsugar", "a.txt", "-o", "one") == (0, b"", ""), "-o of a folder")
    check(os.listdir("one") == ["a.txt"], "a file in a folder")
    with open("a.xml", "rb") as it:
        check(it.read() == XML, "the file of -o")
    foreign = command("to-xml", "pair.xsugar", "c.txt")
    check(foreign == (1, b"", 'c.txt:1:3: expected " " ","\n  (3\n    ^\n'), f"foreign: {foreign}")
    told = json.loads(command("to-xml", "pair.xsugar", "c.txt", "--json")[2])
    check((told["line"], told["column"], told["symbols"]) == (1, 3, 2), "JSON")
    xml = command("to-text", "pair.xsugar", document=b"<p>\n<y>7</y></p>")
    check(xml[0] == 1 and xml[2].startswith("-:1:4: not expected here\n"), f"a place in XML: {xml}")
    check(command("to-xml", "pair.xsugar", "gone")[0] == 6, "a file that is gone")
    colored = command("to-xml", "pair.xsugar", "c.txt", "--color", "always")[2]
    check("\x1b[" in colored and "\x1b[" not in foreign[2], "colours")


def exceptions():
    sheet = xsugar.Sheet(PAIR)
    for error, call in (
        (xsugar.NotXmlError, lambda: sheet.to_text("<p>&nbsp;</p>")),
        (xsugar.NotUtf8Error, lambda: sheet.to_xml(b"(\xff")),
        (xsugar.TooLongError, lambda: sheet.to_xml(b" " * 1048577)),
        (xsugar.OutlineError, lambda: sheet.from_tree("0 tree 1\n")),
        (xsugar.ScriptError, lambda: sheet.session("put\n")),
        (xsugar.SheetError, lambda: xsugar.Sheet("xsugar-1\nstart s\ns : \"a = <s/>\n")),
    ):
        try:
            call()
        except xsugar.Error as told:
            check(type(told) is error, f"{error.__name__}: {told!r}")
        else:
            check(False, error.__name__)
    sheet.close()
    try:
        sheet.to_xml("(3,7)")
    except ValueError:
        check(True, "closed")
    check(xsugar.run(["to-xml", "sheet"], PAIR, "(3,7)") == (0, XML), "run")


doctests()
exceptions()
commands()
for page in sys.argv[1:]:
    example(page)
print(f"{passed} passed, {failed} failed")
sys.exit(failed != 0)
