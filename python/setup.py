"""The extension module is built by build_library.py; all else is in pyproject.toml."""
from setuptools import setup

setup(cffi_modules=["build_library.py:ffi"])
