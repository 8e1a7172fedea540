"""Tells setuptools of the module for C, whose wheel serves each later Python by the stable interface, and to build in a folder
of its own, since what an earlier build left there may be linked with another library. All else stands in pyproject.toml."""
import sysconfig
from tempfile import TemporaryDirectory

import cffi  # noqa: F401 (without it setuptools would leave out the module in silence)
from setuptools import setup

# Python without its lock has no stable interface.
WHEEL = {} if sysconfig.get_config_var("Py_GIL_DISABLED") else {"bdist_wheel": {"py_limited_api": "cp39"}}

with TemporaryDirectory() as folder:
    setup(cffi_modules=["build_library.py:ffi"], options={"build": {"build_base": folder}, **WHEEL})
