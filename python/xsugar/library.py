"""The shared object, by ctypes: what include/xsugar.h declares."""
import ctypes
import os
from ctypes import POINTER, Structure, byref, c_bool, c_char_p, c_size_t, c_uint32, c_uint64, c_void_p

DONE, MEMORY, NOT_OPEN = 0, 8, 12
FORMS = {"as-is": 0, "nfc": 1, "nfd": 2}
SIDES = {"text": 0, "xml": 1}


class Bytes(Structure):
    _fields_ = [("at", c_void_p), ("length", c_size_t)]


class Answer(Structure):
    _fields_ = [("bytes", Bytes), ("place", c_uint64), ("kind", c_uint32)]


class Handle(Structure):
    _fields_ = [("is_open", c_bool), ("held", c_void_p)]


def _loaded():
    """Loads the shared object: that of XSUGAR_LIBRARY, that of the package, or the system's."""
    beside = os.path.join(os.path.dirname(__file__), "libxsugar.so")
    path = os.environ.get("XSUGAR_LIBRARY") or (beside if os.path.exists(beside) else "libxsugar.so")
    library = ctypes.CDLL(path)
    document, handle, answer = [c_char_p, c_size_t], [POINTER(Handle)], [POINTER(Answer)]
    number = [c_uint32]
    arguments = {
        "xsugar_sheet_open": document + handle + answer,
        "xsugar_sheet_leiden": handle + answer,
        "xsugar_sheet_leiden2": handle + answer,
        "xsugar_to_xml": handle + document + number + answer,
        "xsugar_to_text": handle + document + answer,
        "xsugar_round_text": handle + document + number + answer,
        "xsugar_round_xml": handle + document + answer,
        "xsugar_to_tree": handle + document + number + number + answer,
        "xsugar_from_tree": handle + document + number + answer,
        "xsugar_session": handle + document + answer,
        "xsugar_run": [POINTER(Bytes), c_size_t] + document * 3 + answer,
    }
    for name, types in arguments.items():
        function = getattr(library, name)
        function.argtypes, function.restype = types, c_uint32
    library.xsugar_sheet_close.argtypes, library.xsugar_sheet_close.restype = handle, None
    library.xsugar_free.argtypes, library.xsugar_free.restype = [c_void_p], None
    return library


LIBRARY = _loaded()


class Told:
    """How a call ended: its status, the kind of its outcome, the number that this tells, and bytes."""

    def __init__(self, status, answer):
        self.status, self.kind, self.place = status, answer.kind, answer.place
        self.bytes = ctypes.string_at(answer.bytes.at, answer.bytes.length)
        if answer.bytes.length:
            LIBRARY.xsugar_free(answer.bytes.at)


def called(name, *arguments):
    """Calls a function of the library; want of memory is a MemoryError."""
    answer = Answer()
    answer.bytes.at = ctypes.cast(c_char_p(b""), c_void_p).value
    status = getattr(LIBRARY, name)(*arguments, byref(answer))
    if status == MEMORY:
        raise MemoryError("xsugar: want of memory")
    return Told(status, answer)
