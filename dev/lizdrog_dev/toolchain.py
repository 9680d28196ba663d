"""The Rattle toolchain: where it is, and its own module of crates."""
import functools
import importlib.machinery
import os
import pathlib
import shutil
import sys
import types


def kit_folder() -> pathlib.Path:
    """The folder of the toolchain."""
    rt = shutil.which("rt")
    if rt is None:
        sys.exit("the Rattle toolchain is missing: there is no rt on the PATH")
    return pathlib.Path(os.path.realpath(rt)).parent.parent


def load(file: pathlib.Path, name: str) -> types.ModuleType:
    """A Python file of the toolchain, as a module."""
    sys.dont_write_bytecode = True
    module = types.ModuleType(name)
    module.__file__ = str(file)
    sys.modules[name] = module
    importlib.machinery.SourceFileLoader(name, str(file)).exec_module(module)
    return module


@functools.cache
def rt_library() -> types.ModuleType:
    """The module of the toolchain that knows crates."""
    return load(kit_folder() / "bin" / "rtlib.py", "rtlib")
