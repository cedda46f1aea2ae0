"""The C library and the helper beside it, by ctypes."""

import ctypes
import ctypes.util
import glob
import os

HERE = os.path.dirname(os.path.abspath(__file__))
TOP = os.path.join(HERE, "..", "..", "..")


class NoLibrary(Exception):
    """The C library, or the helper, isn't there."""


class Buffer(ctypes.Structure):
    """`realm_buffer` of turns.c."""

    _fields_ = [("bytes", ctypes.c_void_p), ("len", ctypes.c_size_t), ("room", ctypes.c_size_t)]

    def content(self) -> bytes:
        return ctypes.string_at(self.bytes, self.len) if self.len else b""


def _library_path() -> str:
    given = os.environ.get("REALM_SYNC_LIBRARY")
    built = os.path.join(TOP, "out", "librealm_sync.so")
    path = given or (built if os.path.exists(built) else ctypes.util.find_library("realm_sync"))
    if not path:
        raise NoLibrary("no librealm_sync.so: examples/c/library.sh builds it, and REALM_SYNC_LIBRARY may name it")
    return path


def _turns_path() -> str:
    built = glob.glob(os.path.join(HERE, "_turns*.so"))
    path = os.environ.get("REALM_SERVICE_TURNS") or (built[0] if built else "")
    if not path:
        raise NoLibrary("the package's C helper isn't built: pip install builds it, and ./realm_service at the top of the repository")
    return path


def _loaded(path: str) -> ctypes.CDLL:
    try:
        return ctypes.CDLL(path)
    except OSError as error:
        raise NoLibrary(str(error)) from error


class Library:
    """`realm_node_turn` and what turns.c makes of it. No call holds the interpreter's lock."""

    def __init__(self) -> None:
        realm_sync, turns = _loaded(_library_path()), _loaded(_turns_path())
        at, size, buffer = ctypes.c_void_p, ctypes.c_size_t, ctypes.POINTER(Buffer)
        self.new = realm_sync.realm_node_new
        self.new.argtypes, self.new.restype = [ctypes.POINTER(at)], ctypes.c_bool
        self.free = realm_sync.realm_node_free
        self.free.argtypes, self.free.restype = [at], None
        self.one_turn = realm_sync.realm_node_turn
        self.one_turn.argtypes, self.one_turn.restype = [at, ctypes.c_char_p, size, ctypes.c_char_p, size], size
        self.turn = ctypes.cast(realm_sync.realm_node_turn, at)
        self.turns = turns.realm_turns
        self.turns.argtypes, self.turns.restype = [at, at, ctypes.c_char_p, size, buffer], size
        self.gather = turns.realm_gather
        self.gather.argtypes, self.gather.restype = [at, at, buffer, buffer, ctypes.POINTER(ctypes.c_uint64)], ctypes.c_bool
        self.free_buffer = turns.realm_buffer_free
        self.free_buffer.argtypes, self.free_buffer.restype = [buffer], None


def give_back() -> None:
    """Memory of nodes that were let go goes back to the system: the C library's allocator keeps it otherwise."""
    system = ctypes.CDLL(None)
    if hasattr(system, "malloc_trim"):  # of glibc
        system.malloc_trim(0)


def share_memory() -> None:
    """The threads in which nodes work share few stocks of free memory, which otherwise each keeps one of its own."""
    arena_max = -8
    system = ctypes.CDLL(None)
    if hasattr(system, "mallopt"):
        system.mallopt(arena_max, 2)
