#!/usr/bin/env python3
"""The library from Python, by a shared object that is made of the installed archive.

    c/examples/example.py PREFIX      PREFIX is the folder that c/install was given
"""
import ctypes
import os
import subprocess
import sys
import tempfile


def shared_object(prefix, folder):
    """Makes a shared object of the archive, and loads it."""
    file = f"{folder}/libnum_modular.so"
    archive = ["-Wl,--whole-archive", f"{prefix}/lib/libnum_modular.a", "-Wl,--no-whole-archive"]
    subprocess.run(["cc", "-shared", "-o", file, *archive], check=True)
    return ctypes.CDLL(file)


def main(prefix):
    word = ctypes.c_uint64
    with tempfile.TemporaryDirectory() as folder:
        library = shared_object(prefix, folder)
    power = library.nm_powm
    power.argtypes, power.restype = [word, word, word, ctypes.POINTER(word)], ctypes.c_uint32
    found = word(7)
    code = power(3, 9223372036854775778, 18446744073709551557, ctypes.byref(found))
    print(f"code {code}: {found.value}")
    code = power(3, 1, 0, ctypes.byref(found))
    print(f"code {code}: {found.value} stays")


if __name__ == "__main__":
    if len(sys.argv) != 2:
        print(__doc__.strip(), file=sys.stderr)
        sys.exit(2)
    if not os.path.exists(f"{sys.argv[1]}/lib/libnum_modular.a"):
        sys.exit(f"{sys.argv[1]} has no lib/libnum_modular.a: c/install {sys.argv[1]} puts it there")
    main(sys.argv[1])
