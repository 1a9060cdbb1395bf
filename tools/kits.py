"""The kit's command `rt`, read as a module: what tools/rt, tools/prove, tools/build and tools/wrong-bodies know of its insides."""
import importlib.util
import os
import shutil
import sys
from importlib.machinery import SourceFileLoader

# What a check of the upper crates takes of memory, beside what `rt` reckons by itself.
SHARE = 0.4


def kept(ask):
    """What a crate answers to this call, asked once for each folder."""
    answers = {}

    def once(crate):
        if crate.folder not in answers:
            answers[crate.folder] = ask(crate)
        answer = answers[crate.folder]
        return [*answer] if isinstance(answer, list) else answer

    return once


def file():
    """The file of the command, or None where it is not here."""
    found = shutil.which("rt")
    return found and os.path.realpath(found)


def kit():
    """The kit's `rt` as a module, or None where it is not here or its insides are not as they are known."""
    if file() is None:
        return None
    sys.dont_write_bytecode = True
    loader = SourceFileLoader("kit_rt", file())
    module = importlib.util.module_from_spec(importlib.util.spec_from_loader("kit_rt", loader))
    sys.modules["kit_rt"] = module
    try:
        loader.exec_module(module)
        crate = module.rtlib.Crate
        crate.below, crate.stamp = kept(crate.below), kept(crate.stamp)
        need = module.need
        module.need = lambda crate: SHARE * need(crate)
        return module if callable(module.main) else None
    except (AttributeError, SyntaxError, UnicodeDecodeError, ValueError):
        return None


def keeps(module):
    """Whether the kit's `rt ci` keeps what it proved, and takes the names of crates."""
    return hasattr(module, "Kept")


def lines_of(module, crate):
    """How many lines of its own a check of the crate reads."""
    return sum(module.rtlib.text_of(it).count("\n") for it in module.rtlib.files_of(crate.folder))
