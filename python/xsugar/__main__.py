"""The commands of the translator, with files, places and colours: python -m xsugar --help."""
from __future__ import annotations

import argparse
import json
import os
import queue
import sys
import threading
from typing import Any, Optional

import xsugar
from xsugar.errors import Error, ForeignError, NotUtf8Error, NotXmlError, OutlineError, SheetError

_MEMORY, _DEVICE = 8, 6
_RED, _BOLD, _PLAIN = "\x1b[31;1m", "\x1b[1m", "\x1b[0m"


def _parser() -> argparse.ArgumentParser:
    parser = argparse.ArgumentParser(
        prog="python -m xsugar",
        description="Translates text and XML into each other by a stylesheet.",
        epilog="SHEET is a file, @leiden or @leiden2. FILE - is standard input, which is read where "
        "no file is named. The status is that of the program: 0 done, 1 foreign, 2 and 3 the sheet is "
        "refused, 4 no UTF-8 or XML, 5 usage, 6 a file cannot be read or written, 7 too long, 8 want "
        "of memory, 11 no outline.",
    )
    parser.add_argument("--version", action="version", version=f"xsugar {xsugar.__version__}")
    commands = parser.add_subparsers(dest="command", required=True, metavar="COMMAND")
    common = argparse.ArgumentParser(add_help=False)
    common.add_argument("sheet", metavar="SHEET")
    common.add_argument("--json", action="store_true", help="report in JSON, a line for each file")
    common.add_argument("--color", choices=("auto", "always", "never"), default="auto")
    commands.add_parser("check", parents=[common], help="check a sheet")
    common.add_argument("files", metavar="FILE", nargs="*", default=["-"])
    common.add_argument("-o", "--output", help="a file, or a folder where there are several files")
    common.add_argument("--jobs", type=int, default=1, help="how many files at once")
    forms = argparse.ArgumentParser(add_help=False)
    forms.add_argument("--form", choices=("as-is", "nfc", "nfd"), default="as-is")
    sides = argparse.ArgumentParser(add_help=False)
    sides.add_argument("--side", choices=("text", "xml"), default="text")
    commands.add_parser("to-xml", parents=[common, forms], help="translate texts to XML")
    commands.add_parser("to-text", parents=[common], help="translate XML to texts")
    commands.add_parser("round", parents=[common, forms, sides], help="put into the normal spelling")
    commands.add_parser("to-tree", parents=[common, forms, sides], help="write the outlines of trees")
    commands.add_parser("from-tree", parents=[common, sides], help="write documents of outlines")
    return parser


def _opened(args: argparse.Namespace) -> xsugar.Sheet:
    if args.sheet in ("@leiden", "@leiden2"):
        return xsugar.Sheet(args.sheet)
    return xsugar.Sheet.from_file(args.sheet)


def _answer(args: argparse.Namespace, sheet: xsugar.Sheet, data: bytes) -> bytes:
    if args.command == "to-xml":
        return sheet.to_xml(data, args.form)
    if args.command == "to-text":
        return sheet.to_text(data)
    if args.command == "round":
        return sheet.round_xml(data) if args.side == "xml" else sheet.round_text(data, args.form)
    if args.command == "to-tree":
        return sheet.to_tree(data, args.side, args.form)
    return sheet.from_tree(data, args.side)


def _place(error: Error, data: bytes) -> tuple[Optional[int], Optional[int]]:
    """Returns the line and column of an error, where it has one."""
    if isinstance(error, (ForeignError, NotXmlError)):
        return error.line, error.column
    if isinstance(error, NotUtf8Error):
        before = data[: error.byte].decode()
        return before.count("\n") + 1, len(before) - before.rfind("\n")
    if isinstance(error, SheetError) and error.byte is not None:
        before = data[: error.byte].decode(errors="replace")
        return before.count("\n") + 1, len(before) - before.rfind("\n")
    if isinstance(error, SheetError):
        return error.line, None
    return (error.line, None) if isinstance(error, OutlineError) else (None, None)


class _Reporter:
    """Reports on standard error, in lines or in JSON, and shows how far the files are."""

    def __init__(self, args: argparse.Namespace, count: int) -> None:
        terminal = sys.stderr.isatty()
        self.colored = args.color == "always" or (args.color == "auto" and terminal)
        self.json, self.count, self.ended = args.json, count, 0
        self.bar = terminal and count > 1 and not args.json
        self.lock = threading.Lock()

    def _marked(self, code: str, text: str) -> str:
        return f"{code}{text}{_PLAIN}" if self.colored else text

    def refused(self, name: str, error: Error, data: bytes) -> None:
        line, column = _place(error, data)
        said = error.args[0].partition(": ")[2] if isinstance(error, (ForeignError, NotXmlError)) else error.args[0]
        if self.json:
            return self._json(name, error, line, column)
        where = ":".join(str(it) for it in (name, line, column) if it is not None)
        self._print(f"{self._marked(_BOLD, where)}: {said}")
        if line is not None and column is not None:
            text = data.decode("utf-8-sig", errors="replace").split("\n")[line - 1].rstrip("\r")
            self._print(f"  {text}\n  {' ' * (column - 1)}{self._marked(_RED, '^')}")

    def _json(self, name: str, error: Error, line: Optional[int], column: Optional[int]) -> None:
        told: dict[str, Any] = {"file": name, "status": error.status, "error": type(error).__name__}
        told.update(report=error.report, line=line, column=column)
        for key in ("symbols", "expected", "characters", "byte", "weight", "side", "name", "lines", "cut", "words"):
            if getattr(error, key, None) is not None:
                told[key] = getattr(error, key)
        self._print(json.dumps(told, ensure_ascii=False))

    def failed(self, name: str, message: str, status: int) -> None:
        if self.json:
            self._print(json.dumps({"file": name, "status": status, "report": message}))
        else:
            self._print(f"{self._marked(_BOLD, name)}: {message}")

    def _print(self, text: str) -> None:
        with self.lock:
            if self.bar:
                sys.stderr.write("\r\x1b[K")
            print(text, file=sys.stderr)

    def step(self) -> None:
        with self.lock:
            self.ended += 1
            if self.bar:
                done = 30 * self.ended // self.count
                sys.stderr.write(f"\r[{'#' * done}{'.' * (30 - done)}] {self.ended}/{self.count}")
                sys.stderr.write("\n" if self.ended == self.count else "")
                sys.stderr.flush()


def _read(name: str) -> bytes:
    if name == "-":
        return sys.stdin.buffer.read()
    with open(name, "rb") as it:
        return it.read()


def _target(args: argparse.Namespace, name: str) -> Optional[str]:
    is_file = len(args.files) == 1 and not os.path.isdir(args.output or "")
    if args.output in (None, "-") or is_file:
        return args.output
    return os.path.join(args.output, os.path.basename(name) if name != "-" else "stdin")


def _write(target: Optional[str], data: bytes) -> None:
    if target in (None, "-"):
        sys.stdout.buffer.write(data)
        sys.stdout.buffer.flush()
    else:
        with open(target, "wb") as it:
            it.write(data)


def _one(args: argparse.Namespace, sheet: xsugar.Sheet, name: str, reporter: _Reporter) -> tuple[int, bytes]:
    """Returns the status of a file and its answer, and reports why there is none."""
    data = b""
    try:
        data = _read(name)
        return 0, _answer(args, sheet, data)
    except Error as error:
        reporter.refused(name, error, data)
        return error.status, b""
    except OSError as error:
        reporter.failed(name, error.strerror or str(error), _DEVICE)
        return _DEVICE, b""
    except MemoryError:
        reporter.failed(name, "want of memory", _MEMORY)
        return _MEMORY, b""


def _all(args: argparse.Namespace, sheet: xsugar.Sheet, reporter: _Reporter) -> int:
    """Does all files, by so many threads; each but the first opens the sheet for itself."""
    todo: queue.SimpleQueue[int] = queue.SimpleQueue()
    for place in range(len(args.files)):
        todo.put(place)
    ended: list[Optional[tuple[int, bytes]]] = [None] * len(args.files)

    def work(own: xsugar.Sheet) -> None:
        while True:
            try:
                place = todo.get_nowait()
            except queue.Empty:
                return
            ended[place] = _one(args, own, args.files[place], reporter)
            reporter.step()

    count = max(1, min(args.jobs, len(args.files)))
    threads = [threading.Thread(target=lambda: work(_opened(args))) for _ in range(count - 1)]
    for it in threads:
        it.start()
    work(sheet)
    for it in threads:
        it.join()
    status = 0
    for name, one in zip(args.files, ended):
        code, answer = one or (_MEMORY, b"")
        status = status or code
        if code == 0:
            try:
                _write(_target(args, name), answer)
            except OSError as error:
                reporter.failed(_target(args, name) or "output", error.strerror or str(error), _DEVICE)
                status = status or _DEVICE
    return status


def main(words: Optional[list[str]] = None) -> int:
    """Runs a command and returns its status."""
    try:
        args = _parser().parse_args(words)
    except SystemExit as ended:
        return 5 if ended.code else 0
    files = getattr(args, "files", [])
    reporter = _Reporter(args, len(files))
    try:
        sheet = _opened(args)
    except SheetError as error:
        data = b"" if args.sheet.startswith("@leiden") else _read(args.sheet)
        reporter.refused(args.sheet, error, data)
        return error.status
    except OSError as error:
        reporter.failed(args.sheet, error.strerror or str(error), _DEVICE)
        return _DEVICE
    except MemoryError:
        return _MEMORY
    if args.command == "check":
        print(json.dumps({"file": args.sheet, "status": 0}) if args.json else f"{args.sheet}: accepted")
        return 0
    return _all(args, sheet, reporter)


if __name__ == "__main__":
    sys.exit(main())
