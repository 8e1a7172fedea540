"""Builds num_modular._library, which calls the library for C, by what its header declares.

The library is the installed one of this package's minor version, by pkg-config. Where there is none, cargo builds one of
../rust/capi, whose archive becomes a part of the module.
"""
import os
import re
import shlex
import shutil
import subprocess
from pathlib import Path

from cffi import FFI

HERE = Path(os.path.realpath(__file__)).parent
NAME = "num_modular"
VERSION = re.search(r'^__version__ = "(\d+)\.(\d+)\.', (HERE / "src/num_modular/__init__.py").read_text(encoding="utf-8"), re.M)


def declared(header):
    """The part of the header that cffi reads: constants without their values, types and functions. Macros that compute
    lengths and inline functions are functions to it."""
    text = re.sub(r"/\*.*?\*/", "", header, flags=re.S)
    constants = re.findall(r"^#define (NM_\w+) (?:\d|UINT64_C)", text, re.M)
    lengths = re.findall(r"^#define (NM_\w+)\((.*?)\)", text, re.M)
    macros = (f"size_t {name}({', '.join(f'size_t {it}' for it in words.split(', '))});" for name, words in lengths)
    inline = (f"{it};" for it in re.findall(r"^static inline (const char \*nm_\w+\([^)]*\)) \{$", text, re.M))
    types = re.findall(r"^typedef (?:struct \{.*?^\}|\w+) \w+;$", text, re.M | re.S)
    functions = re.findall(r"^(?:NM_CHECK )?((?:uint32_t|nm_code_t) nm_\w+\([^)]*\);)$", text, re.M)
    return "\n".join([*(f"#define {it} ..." for it in constants), *types, *macros, *inline, *functions])


def asked(*words):
    """What pkg-config prints, as a list of words."""
    said = subprocess.run(["pkg-config", *words, NAME], stdout=subprocess.PIPE, text=True, check=True).stdout
    return shlex.split(said)


def is_installed():
    """Whether there is a library of this package's minor version, since each minor version may change the interface."""
    found, (major, minor) = shutil.which("pkg-config"), map(int, VERSION.groups())
    versions = f"{NAME} >= {major}.{minor} {NAME} < {major}.{minor + 1}"
    return bool(found) and subprocess.run([found, "--exists", versions], check=False).returncode == 0


def installed():
    """The folder of the installed header, and how to link with the installed library."""
    places = [it[2:] for it in asked("--libs-only-L", "--keep-system-libs")]
    include = [it[2:] for it in asked("--cflags-only-I", "--keep-system-cflags")]
    return include[0], {"libraries": [NAME], "library_dirs": places, "runtime_library_dirs": places}


def built():
    """The same for the library that cargo builds from the sources beside this folder."""
    package = HERE.parent / "rust/capi"
    if not (package / "Makefile").exists() or not shutil.which("cargo"):
        raise SystemExit("pkg-config finds no num_modular for C of this version, and it can't be built without cargo and the "
                         "sources beside this folder")
    subprocess.run(["make", "-s", "-C", package], check=True)
    return HERE.parent / "c/include", {"extra_objects": [str(package / "target/release/own/libnum_modular.a")]}


def builder():
    include, linked = installed() if is_installed() else built()
    ffi = FFI()
    ffi.cdef(declared(Path(include, "num_modular.h").read_text(encoding="utf-8")))
    ffi.set_source(f"{NAME}._library", "#include <num_modular.h>", include_dirs=[str(include)], **linked)
    return ffi


ffi = builder()
