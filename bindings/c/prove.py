#!/usr/bin/env python3
"""Leaves the proved crate `borsh_c` as crates/borsh_c/out/libborsh_c.a, and beside it module.bc, the LLVM module that the archive was
compiled from, which bindings/js/build makes WebAssembly of. Words are flags of `rt lib`.

Where `rt ci` has proved the libraries below the crate, it isn't done again. It leaves them in crates/*/out/rlib, without the stamp by
which `rt lib` knows its own, so that `rt lib` would prove them once more. If all of them lie there so, and are newer than each file
that they are made of, `borsh_c` alone is proved, from nothing, over them. So the verdict rests on these libraries: on what `rt ci`
proved in this checkout, on nobody having changed out/ since, and on the times of the files. Else what isn't kept is proved, as by
`rt lib`.

`rattle build` hands its module to the clang of the toolchain that it is given, as the file module.bc in the folder where it calls it. So
it is given a toolchain of links, whose clang keeps that file first.
"""
import os
import pathlib
import shutil
import subprocess
import sys
import tempfile

TOP = pathlib.Path(__file__).resolve().parent.parent.parent
FOLDER = TOP / "crates/borsh_c"
ARCHIVE, MODULE = "out/libborsh_c.a", "out/module.bc"

sys.dont_write_bytecode = True
KIT = pathlib.Path(subprocess.run(["rt", "doc"], capture_output=True, text=True, check=True).stdout.strip()).parent
sys.path.insert(0, str(KIT / "bin"))
import rtlib  # noqa: E402 (the toolchain's own, behind `rt`)

CLANG = """#!/bin/sh
if [ -f module.bc ]; then cp module.bc '{module}' || exit 1; fi
exec '{clang}' "$@"
"""


def make_toolchain(folder):
    """A toolchain whose clang leaves what it is given as the file `module.bc` of the folder."""
    toolchain = folder / "toolchain"
    (toolchain / "bin").mkdir(parents=True)
    (toolchain / "lib").symlink_to(KIT / "toolchain/lib")
    for tool in (KIT / "toolchain/bin").iterdir():
        if tool.name != "clang":
            (toolchain / "bin" / tool.name).symlink_to(tool)
    clang = toolchain / "bin/clang"
    clang.write_text(CLANG.format(module=folder / "module.bc", clang=KIT / "toolchain/bin/clang"), encoding="utf-8")
    clang.chmod(0o755)
    return toolchain


def is_of_rt_ci(library):
    """Whether the crate's library is one that `rt ci` left, of the files that are there now."""
    rlib = pathlib.Path(library.rlib)
    if not rlib.is_dir() or (rlib.parent / "stamp").exists():
        return False
    files = [*rtlib.files_of(library.folder), TOP / "crates.txt"]
    return all(os.stat(file).st_mtime_ns < os.stat(rlib.parent).st_mtime_ns for file in files)


def prove(crate, compiling):
    """Proves the crate, and compiles it with these words."""
    if all(map(is_of_rt_ci, crate.below())):
        print("the libraries below are those that `rt ci` proved; proving `borsh_c` over them", flush=True)
        # It holds the verdict to the words that it may have.
        return crate.prove(["build", *crate.words([], keeps=False), *compiling])
    flags = sys.argv[1:]
    for library in crate.below():
        status = library.build_rlib(flags, anew=False)
        if status != 0:
            return status
    return crate.call(rtlib.RATTLE, "build", *crate.words(flags), *rtlib.KEPT, *compiling)


def sums():
    return "".join(rtlib.sum_of(str(FOLDER / file)) for file in (ARCHIVE, MODULE) if (FOLDER / file).is_file())


def main():
    crate = rtlib.Crate(str(FOLDER), str(TOP), {})
    kept, module = FOLDER / (ARCHIVE + ".stamp"), FOLDER / MODULE
    stamp = crate.stamp()
    if rtlib.text_of(str(kept)) != stamp + sums():
        rtlib.guarded()  # sets a signal's handler, which the threads of `prove` may not
        crate.held = rtlib.lock([*crate.below(), crate])  # until the end of this process
    # Another build may have made it meanwhile.
    if rtlib.text_of(str(kept)) == stamp + sums():
        print("libborsh_c.a is of these files, and was proved")
        return 0
    kept.unlink(missing_ok=True)
    module.unlink(missing_ok=True)
    module.parent.mkdir(exist_ok=True)
    with tempfile.TemporaryDirectory() as room:
        folder = pathlib.Path(room)
        compiling = ["--toolchain", str(make_toolchain(folder)), "--backend", "llvm", "-o", ARCHIVE]
        status = prove(crate, compiling)
        if status == 0 and (folder / "module.bc").is_file():
            shutil.copy(folder / "module.bc", module)
    if status == 0 and crate.stamp() == stamp:
        kept.write_text(stamp + sums(), encoding="utf-8")
    return status


if __name__ == "__main__":
    sys.exit(main())
