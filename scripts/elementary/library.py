"""The built elementary functions, for Python: target/staticlib/libpotirehu.a as a shared library."""
import ctypes
import subprocess
import sys
from pathlib import Path

ROOT = Path(__file__).resolve().parents[2]
archive, shared = ROOT / "target/staticlib/libpotirehu.a", ROOT / "target/elementary/libpotirehu.so"
if not archive.exists():
    sys.exit("no target/staticlib/libpotirehu.a: run 'scripts/staticlib potirehu' first")
shared.parent.mkdir(parents=True, exist_ok=True)
subprocess.run(["cc", "-shared", "-o", shared, "-Wl,--whole-archive", archive, "-Wl,--no-whole-archive"], check=True)
library = ctypes.CDLL(str(shared))


def function(name):
    f = getattr(library, "elementary_" + name)
    f.restype, f.argtypes = ctypes.c_double, [ctypes.c_double] * (2 if name == "pow" else 1)
    return f
