"""Calls the static library from Python. It takes it as a shared one:

    (cd crates/varitmol && rt lib)
    mkdir -p target
    gcc -shared -o target/libvaritmol.so -Wl,--whole-archive crates/varitmol/out/libvaritmol.a -Wl,--no-whole-archive

A slice is two arguments, a buffer and its length; the parameters' order is that of include/varitmol.h.
"""
import ctypes
import pathlib
import time

from complaints import end

MAKE = "rt lib in crates/varitmol, then the gcc command of tools/library.py in the repository's root"


class Answer(ctypes.Structure):
    _fields_ = [("number", ctypes.c_uint32)] + [(name, ctypes.c_size_t) for name in ("place", "written", "drops", "skips")]


def function(path, name):
    """The library's function of that name. Ends the tool where there is none."""
    if not pathlib.Path(path).is_file():
        end(f"there is no library {path} ({MAKE})")
    try:
        f = getattr(ctypes.CDLL(str(pathlib.Path(path).resolve())), name)
    except OSError:
        end(f"{path} is no shared library ({MAKE})")
    except AttributeError:
        end(f"{path} has no {name}: it is older than this tool ({MAKE})")
    f.restype = Answer
    return f


def lent(kind, values):
    return [(kind * max(1, len(values)))(*values), ctypes.c_size_t(len(values))]


def octets(values):
    return lent(ctypes.c_uint8, values)


def words(values):
    return lent(ctypes.c_uint32, values)


def flags(values):
    return lent(ctypes.c_bool, values)


# A list of no tokens.
NO_TOKENS = octets(b"") + words([0]) + words([]) + flags([]) + flags([])


def best_time(f, arguments, runs):
    """The shortest of some calls, each of which must be accepted, in nanoseconds."""
    times = []
    for _ in range(runs):
        start = time.perf_counter_ns()
        answer = f(*arguments)
        times.append(time.perf_counter_ns() - start)
        assert answer.number == 0, answer.number
    return min(times)
