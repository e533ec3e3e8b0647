#!/usr/bin/env python3
"""Has the module kept that the prover's compiler makes of what it proved, and hands to clang: the archive is compiled out of it.

    tools/module.py

`rt lib` is run in crates/zonealloc over a view of the toolchain, which is the toolchain but for its bin/clang: that keeps the module of LLVM IR and
the words which come with it, as module.bc and module.words beside the archive, and goes on as the real one. Over what an earlier `rt lib`
kept nothing is proved again. tests/c/run proves and builds the archive over the same view."""
import functools
import shutil
import subprocess
import sys
from pathlib import Path

TOP = Path(__file__).resolve().parent.parent
CRATE = TOP / "crates/zonealloc"
ARCHIVE, MODULE, WORDS = CRATE / "out/libzonealloc.a", CRATE / "out/module.bc", CRATE / "out/module.words"


@functools.cache
def kit():
    """The toolchain."""
    if shutil.which("rt") is None:
        sys.exit("there is no rt: the README names the toolchain")
    return Path(subprocess.run(["rt", "doc"], capture_output=True, text=True, check=True).stdout.strip()).parent


def view():
    """Links to all that the toolchain has, but for clang. (rt finds the rest from where it lies itself.)"""
    real, seen = kit(), TOP / "build/kit"
    shutil.rmtree(seen, ignore_errors=True)
    for folder, apart in ("", ("bin", "toolchain")), ("bin", ("rt", "rtlib.py")), ("toolchain", ("bin",)), ("toolchain/bin", ("clang",)):
        (seen / folder).mkdir(parents=True)
        for it in (real / folder).iterdir():
            if it.name not in apart:
                (seen / folder / it.name).symlink_to(it)
    for it in "rt", "rtlib.py":
        shutil.copy(real / "bin" / it, seen / "bin" / it)
    clang = seen / "toolchain/bin/clang"
    clang.write_text(f'#!/bin/sh\ncp module.bc "{MODULE}" && printf "%s\\n" "$@" > "{WORDS}"\nexec "{real}/toolchain/bin/clang" "$@"\n')
    clang.chmod(0o755)
    return seen


def llvm(tool, *words, **how):
    """What one of the toolchain's tools of LLVM, all of which are one file, says."""
    ran = subprocess.run([tool, *map(str, words)], executable=kit() / "toolchain/bin/clang", capture_output=True, text=True, check=False, **how)
    if ran.returncode:
        raise ValueError(ran.stderr.strip())
    return ran.stdout


def keep():
    """Returns rt's status."""
    return subprocess.run([view() / "bin/rt", "lib"], cwd=CRATE, check=False).returncode


if __name__ == "__main__":
    sys.exit(keep() if len(sys.argv) == 1 else __doc__)
