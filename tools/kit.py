"""The toolchain: where its parts are, and the words with which its command `rt` calls the compiler, for what `rt` has no command for: the
libraries that `rt ci` left, the compiler's own IR, how long a check takes."""
import functools
import importlib.machinery
import importlib.util
import os
import shutil
import subprocess
import sys
from pathlib import Path

ROOT = Path(__file__).resolve().parent.parent


@functools.lru_cache(maxsize=None)
def home():
    """The folder of the toolchain, which is also that of the page that `rt doc` names."""
    if not shutil.which("rt"):
        print("the Rattle toolchain's command rt is not on the PATH", file=sys.stderr)
        sys.exit(2)
    return Path(subprocess.run(["rt", "doc"], stdin=subprocess.DEVNULL, stdout=subprocess.PIPE, check=True, text=True).stdout.strip()).parent


def tool(name):
    """The path of a program that the toolchain brings beside its own: clang, ld.lld, llvm-ar."""
    return home() / "toolchain/bin" / name


@functools.lru_cache(maxsize=None)
def library():
    """What `rt` is made of."""
    loader = importlib.machinery.SourceFileLoader("rtlib", str(home() / "bin/rtlib.py"))
    made = importlib.util.module_from_spec(importlib.util.spec_from_loader("rtlib", loader))
    sys.modules["rtlib"] = made
    loader.exec_module(made)
    return made


def crate_at(top, name):
    """A crate of the repository at `top`, as `rt` sees it."""
    return library().Crate(str(top / "crates" / name), str(top), {})


def rattle(verb, crate, *more, jobs=0, folder=None):
    """Runs the compiler on a crate, or on a changed copy of it in another folder, as `rt` does: from nothing, and over the libraries in the
    folders out/ of the crates below it, once no other `rt` works on these. What it prints is in the result."""
    held = library().lock([*crate.below(), crate])
    words = [str(home() / "bin/rattle"), verb, *crate.words(["--jobs", str(jobs or min(os.cpu_count(), 4))], keeps=False), *map(str, more)]
    ran = subprocess.run(words, cwd=folder or crate.folder, stdin=subprocess.DEVNULL, stdout=subprocess.PIPE, stderr=subprocess.STDOUT,
                         text=True, errors="replace")
    for lock in held:
        os.close(lock)
    return ran
