#!/usr/bin/env python3
"""ir.py OUT.bc: the LLVM module that rattle makes of the proved static library m161_c, before LLVM has compiled it.
ir.py --current: whether that library and all crates below it are built of today's sources, by the times of their files.

`rattle build` checks the crate (over the work that `rt lib` kept) and has the clang of its toolchain folder compile the module. It is
called here with a folder whose clang keeps a copy of the module first; else that folder has the kit's own files."""

import os
import pathlib
import shutil
import subprocess
import sys
import tempfile

CLANG = """#!/bin/bash
for it in "$@"; do case $it in *.bc) cp "$it" {keep!r} ;; esac; done
exec {clang!r} "$@"
"""


def uses(top):
    """The crates of crates.txt, and what each one names."""
    out = {}
    for line in (top / "crates.txt").read_text().splitlines():
        head, _, rest = line.partition("#")[0].partition(":")
        if head.strip():
            out[head.split()[0]] = rest.split()
    return out


def below(crate, known):
    found = []
    for it in known[crate]:
        if it in known:
            found += [name for name in [*below(it, known), it] if name not in found]
    return found


def words(crate, top, kit):
    known = uses(top)
    out = ["--crate-name", crate, "src/lib.rt", "--crate-type", "staticlib", "--jobs", "1"]
    for name in dict.fromkeys(["std", *known[crate]]):
        where = top / f"crates/{name}/out/rlib" if name in known else kit / "rlibs"
        out += ["--extern", f"{name}={where}/{name}.rlib"]
    for where in [kit / "rlibs", *(top / f"crates/{name}/out/rlib" for name in below(crate, known))]:
        out += ["-L", f"dependency={where}"]
    return [*out, "--antt-project", kit / "rattle/logic/antt-project.json", "--logic-built", kit / "logic_built", "--incremental", "out/incremental"]


def toolchain(room, kit, keep):
    """A toolchain folder whose clang keeps a copy of each module."""
    (room / "bin").mkdir()
    for it in (kit / "toolchain").iterdir():
        if it.name != "bin":
            (room / it.name).symlink_to(it)
    for it in (kit / "toolchain/bin").iterdir():
        if it.name != "clang":
            (room / "bin" / it.name).symlink_to(it)
    clang = room / "bin/clang"
    clang.write_text(CLANG.format(keep=str(keep), clang=str(kit / "toolchain/bin/clang")))
    clang.chmod(0o755)
    return room


def is_current(crate, top):
    library = top / f"crates/{crate}/out/lib{crate}.a"
    if not library.is_file():
        return False
    known = uses(top)
    for name in [crate, *below(crate, known)]:
        built = library if name == crate else top / f"crates/{name}/out/rlib/stamp"
        if not built.is_file() or built.stat().st_mtime > library.stat().st_mtime:
            return False
        for part in ("src", "specs", "proofs"):
            for it in (top / f"crates/{name}/{part}").rglob("*"):
                if it.is_file() and it.stat().st_mtime > built.stat().st_mtime:
                    return False
    return True


def main():
    crate, top = "m161_c", pathlib.Path(__file__).resolve().parent.parent
    if len(sys.argv) != 2:
        sys.exit(__doc__)
    if sys.argv[1] == "--current":
        sys.exit(not is_current(crate, top))
    out = pathlib.Path(sys.argv[1]).resolve()
    kit = pathlib.Path(os.path.realpath(shutil.which("rt"))).parent.parent
    folder = top / f"crates/{crate}"
    with tempfile.TemporaryDirectory() as room:
        tools = toolchain(pathlib.Path(room), kit, out)
        command = [kit / "bin/rattle", "build", *words(crate, top, kit), "--toolchain", tools, "--backend", "llvm", "-o", f"{room}/library.a"]
        ran = subprocess.run(command, cwd=folder, stdout=subprocess.PIPE, stderr=subprocess.STDOUT, text=True)
    if ran.returncode or not out.is_file():
        print("\n".join(ran.stdout.splitlines()[-12:]), file=sys.stderr)
        sys.exit(f"web/ir.py: rattle made no module of {crate}")


if __name__ == "__main__":
    main()
