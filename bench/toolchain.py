"""The module that `rt` is made of, for those who call the toolchain as it does: ./build and ./test."""
import importlib.machinery
import os
import shutil
import sys
import types


def toolchain():
    """That module: how it calls the prover and the compiler, and by what it knows that a library is proved."""
    found = shutil.which("rt")
    if found is None:
        sys.exit(f"{os.path.basename(sys.argv[0])}: there is no rt, the tool of the toolchain")
    sys.dont_write_bytecode = True
    module = types.ModuleType("rtlib")
    module.__file__ = os.path.join(os.path.dirname(os.path.realpath(found)), "rtlib.py")
    importlib.machinery.SourceFileLoader("rtlib", module.__file__).exec_module(module)
    return module
