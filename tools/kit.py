"""The kit's command `rt` as a module, which knows the words that the prover takes for a crate, over the libraries that `rt ci` has left.

`dist/library` builds over these, and `tests/wrong` tries wrong bodies over them.
"""

import shutil
import sys
from importlib.machinery import SourceFileLoader
from importlib.util import module_from_spec, spec_from_loader
from pathlib import Path

TOP = Path(__file__).resolve().parent.parent


def loaded():
    """The folder of the kit, and its command."""
    path = Path(shutil.which("rt")).resolve()
    sys.path.insert(0, str(path.parent))
    loader = SourceFileLoader("rt_command", str(path))
    command = module_from_spec(spec_from_loader("rt_command", loader))
    loader.exec_module(command)
    return path.parent.parent, command


def crates_left(rt):
    """The crates by name, over libraries that are cut to what they state, as `rt ci` leaves them. It is called in the top folder."""
    rt.Crate.cuts_libraries = True
    rt.Crate.allowed = rt.handles_of(str(TOP))
    rt.rtlib.guarded()
    return {crate.name: crate for crate in rt.crates_of(str(TOP))}
