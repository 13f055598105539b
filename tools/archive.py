#!/usr/bin/env python3
"""Makes crates/dalumiveth/out/libdalumiveth.a over the libraries that `rt ci` has just proved and left in crates/NAME/out/. A part of the gate (.ci/run).

`rt ci` checks a static library and makes no archive of it. `rt lib`, in crates/dalumiveth, makes one, but does not take the libraries of `rt ci`: in a new
checkout it would prove all of them a second time. So the prover itself is called here, as `rt` calls it: it proves dalumiveth once more, over those libraries,
and compiles it. Where `rt check` has left its own libraries there (they have a file out/rlib/stamp, and `rt ci` puts them back), or where a kit has
other words, `rt lib` is called, which makes anew what is not up to date.
"""
import os
import shutil
import subprocess
import sys

from fence import EXPORTED, listed

ROOT = os.path.dirname(os.path.dirname(os.path.abspath(__file__)))
FOLDER = os.path.join(ROOT, "crates", EXPORTED)
ARCHIVE = os.path.join("out", f"lib{EXPORTED}.a")
NOT_JUDGED = 2           # the prover's status where it was called wrongly, as by a kit with other words


def below(crates, name):
    """The crates that a crate stands on, each after those that it uses itself."""
    found = []
    for used in crates[name]:
        found += [one for one in [*below(crates, used), used] if one not in found]
    return found


def libraries(name):
    """The folder where the library of a crate lies."""
    return os.path.join(ROOT, "crates", name, "out", "rlib")


def words(crates, kit):
    """The prover's words, as `rt` has them for a static library."""
    found = ["build", "--crate-name", EXPORTED, os.path.join("src", "lib.rt"), "--extern", f"std={kit}/rlibs/std.rlib", "-L", f"dependency={kit}/rlibs"]
    for used in crates[EXPORTED]:
        found += ["--extern", f"{used}={libraries(used)}/{used}.rlib"]
    for used in below(crates, EXPORTED):
        found += ["-L", f"dependency={libraries(used)}"]
    return found + ["--antt-project", f"{kit}/rattle/logic/antt-project.json", "--logic-built", f"{kit}/logic_built", "--links", f"{EXPORTED}=",
                    "--crate-type", "staticlib", "--toolchain", f"{kit}/toolchain", "--backend", "llvm", "-o", ARCHIVE]


def called(command):
    """The status of a command, of whose words the last line is printed, or all where it fails."""
    done = subprocess.run(command, cwd=FOLDER, stdout=subprocess.PIPE, stderr=subprocess.STDOUT, text=True)
    print(done.stdout if done.returncode else done.stdout.rstrip("\n").split("\n")[-1])
    return done.returncode


def main():
    os.chdir(ROOT)
    crates = listed()
    if os.path.exists(os.path.join(FOLDER, ARCHIVE)):
        os.remove(os.path.join(FOLDER, ARCHIVE))
    os.makedirs(os.path.join(FOLDER, "out"), exist_ok=True)
    kit = os.path.dirname(os.path.dirname(os.path.realpath(shutil.which("rt"))))
    over_ci = [os.path.join(kit, "bin", "rattle"), *words(crates, kit)]
    own = any(os.path.exists(os.path.join(libraries(name), "stamp")) for name in below(crates, EXPORTED))
    status = NOT_JUDGED if own else called(over_ci)
    sys.exit(called(["rt", "lib"]) if status == NOT_JUDGED else status)


if __name__ == "__main__":
    main()
