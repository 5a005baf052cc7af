"""What the kit hands to its clang.

For that a kit of our own has a clang that keeps its words and its module, and then calls the clang of the kit.
"""
import os
import shutil
import subprocess
from pathlib import Path
from typing import NamedTuple

# The kit's compiler starts clang without an environment, in a folder that has the module.
FRONT = """#!/bin/sh
if [ -e module.bc ]; then
    cp module.bc "{kept}/module.bc" && printf '%s\\n' "$@" > "{kept}/words" || exit 1
fi
exec "{kit}/toolchain/bin/clang" "$@"
"""

# What rattle-kit-13b says to clang of x86-64 and of wasm64, but for the folder of its toolchain, up to the files'
# names. Where a kit says anything else, look at what that does before you change it here: the words for x86-64 may
# change what its module means, and those for wasm64 are used as they stand.
SHARED = """-ffunction-sections -fdata-sections -mllvm -trap-unreachable -mllvm -no-x86-call-frame-opt -mllvm
-disable-machine-licm -mllvm -disable-postra-machine-licm -mllvm -sink-common-insts=false --no-default-config
-no-canonical-prefixes -fintegrated-cc1 -fno-crash-diagnostics -Werror -c -x ir module.bc -o module.o""".split()
NATIVE = """--target=x86_64-unknown-linux-gnu -march=x86-64
-mllvm -no-trap-after-noreturn""".split() + SHARED + ["-fPIC", "-O3"]
WASM = """--target=wasm64-unknown-unknown -mcpu=lime1 -mllvm -expand-div-rem-bits=64
-mllvm -expand-fp-convert-bits=64""".split() + SHARED + ["-O3"]

# Without a heap the kit builds for wasm64. Such a crate shows what it says to clang there.
SMALL = """//! Twice a number.
#![tactic(auto)]

#[unsafe(no_mangle)]
pub extern "C" fn twice(n: u32) -> u64 {
    u64::from(n) * 2
}
"""


class Other(Exception):
    """The kit isn't as it was when it was looked at."""


class Kept(NamedTuple):
    """What the kit handed to clang: the words, and the file of the module."""

    words: list[str]
    module: str


def of_path() -> str:
    """The folder of the kit whose command `rt` is on the path."""
    kit = os.path.dirname(os.path.dirname(os.path.realpath(shutil.which("rt") or "")))
    if not os.access(os.path.join(kit, "toolchain", "bin", "clang"), os.X_OK):
        raise Other(f"there is no toolchain/bin/clang in {kit}, where rt stands")
    return kit


def linked(of: str, to: str, but: str = "") -> None:
    """Makes a folder with a link to all that another has, but for one name."""
    os.makedirs(to)
    for name in os.listdir(of):
        if name != but:
            os.symlink(os.path.join(of, name), os.path.join(to, name))


def with_own_clang(kit: str, folder: str) -> str:
    """Makes a kit in the folder whose clang keeps there what it is given: the kit's command rt."""
    own = os.path.join(folder, "kit")
    linked(kit, own, "bin")
    os.unlink(os.path.join(own, "toolchain"))
    linked(os.path.join(kit, "toolchain"), os.path.join(own, "toolchain"), "bin")
    linked(os.path.join(kit, "toolchain", "bin"), os.path.join(own, "toolchain", "bin"), "clang")
    linked(os.path.join(kit, "bin"), os.path.join(own, "bin"))
    # rt takes for the kit what its own file stands in.
    for name in ("rt", "rtlib.py"):
        os.unlink(os.path.join(own, "bin", name))
        shutil.copy(os.path.join(kit, "bin", name), os.path.join(own, "bin", name))
    front = Path(own, "toolchain", "bin", "clang")
    front.write_text(FRONT.format(kept=folder, kit=kit), "utf-8")
    front.chmod(0o755)
    return os.path.join(own, "bin", "rt")


def kept_by_clang(kit: str, crate: str, folder: str, flags: list[str]) -> Kept:
    """Proves and builds the crate in a folder, and keeps in another what the kit hands to clang."""
    rt = with_own_clang(kit, folder)
    subprocess.run([rt, "lib", *flags], cwd=crate, check=True)
    toolchain = os.path.join(folder, "kit", "toolchain")
    words = Path(folder, "words").read_text("utf-8").splitlines()
    return Kept([word for word in words if word != f"--sysroot={toolchain}"], os.path.join(folder, "module.bc"))


def stop_on_other_words(found: list[str], known: list[str]) -> None:
    """Stops where words to clang aren't those that were looked at."""
    if found != known:
        raise Other(f"the kit says to clang\n  {' '.join(found)}\nand not\n  {' '.join(known)}\nSee runtime/engine/kit.py")


def words_for_wasm(kit: str, folder: str, flags: list[str]) -> list[str]:
    """What the kit says to clang for wasm64, in front of the files' names."""
    crate = os.path.join(folder, "crates", "small")
    os.makedirs(os.path.join(crate, "src"))
    Path(crate, "src", "lib.rt").write_text(SMALL, "utf-8")
    Path(folder, "crates.txt").write_text("small wasm64:\n", "utf-8")
    Path(folder, "HANDLES").write_text("Handles allowed: none.\n", "utf-8")
    subprocess.run(["git", "init", "-q", folder], check=True)
    words = kept_by_clang(kit, crate, os.path.join(folder, "kept"), flags).words
    stop_on_other_words(words, WASM)
    return words[:words.index("-c")]
