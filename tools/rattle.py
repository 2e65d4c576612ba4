"""The kit's `rt` as a module. It knows how the compiler is called for a crate, where no command of rt does just that; another kit's may differ."""
import importlib.machinery
import importlib.util
import os
import shutil
import sys

import command


def rtlib():
    """What rt is made of: `Crate`, and `RATTLE`, the compiler."""
    sys.dont_write_bytecode = True
    file = shutil.which("rt") or command.fail("rt is missing; unpack the Rattle kit and put its folder bin on the PATH", 2)
    loader = importlib.machinery.SourceFileLoader("rt", os.path.realpath(file))
    made = importlib.util.module_from_spec(importlib.util.spec_from_loader("rt", loader))
    loader.exec_module(made)
    return made.rtlib


def crate(root, name):
    return rtlib().Crate(f"{root}/crates/{name}", str(root), {})
