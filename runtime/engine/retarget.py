"""Compiles for WebAssembly what the kit hands to its clang for x86-64.

The kit's LLVM backend refuses the C library's heap on wasm64, which each `Global` calls. So the LLVM module that it
makes for x86-64 is taken, and its target named anew: both targets have pointers and usize of 64 bits and the same
alignments. The three functions of the heap become imports from `heap`, the export gets its name, and all else stays
as it is. The kit's own clang, with the words that the kit gives it for wasm64, and the kit's own linker make the
module. Then `wasm-opt` cuts its memory to 32 bits, so that each browser runs it: pointers keep 64 bits, and are cut
where they are used.

What the kit itself writes for wasm64 has two things more. Each function with a frame traps where the stack has run
over; here the stack lies below all else, so the first access past its end traps. And an export refuses to run after a
trap; here the host takes a new instance then.

Whatever the LLVM module has that isn't known here stops it: another function of LLVM, assembly or types of one
processor, calls of C except the heap's, memory that others may name, other attributes. So do other words of the kit to
clang (kit.py), and a finished module with a table of functions, another memory, or other imports and exports
(sections.py).
"""
import os
import re
import subprocess
from pathlib import Path

EXPORT = "coop_run"
LAYOUT = "e-m:e-p:64:64-p10:8:8-p20:8:8-i64:64-i128:128-n32:64-S128-ni:1:10:20"
TRIPLE = "wasm64-unknown-unknown"
CPU = "lime1"
# Bytes. With a stack of 256 KB each run of tools/gate/try-page ended as it should; with 192 KB some trapped, and with
# 64 KB a fifth. None answered otherwise.
STACK = 1048576
HEAP = ("rattle_alloc", "rattle_realloc", "rattle_dealloc")
# LLVM makes these anew for any target.
INTRINSICS = ("arithmetic.fence", "ctlz", "ctpop", "cttz", "memcpy", "memmove", "memset", "trap", "vector.reduce.or")
# What stands in quotes in the attributes of a function; the first two are about the stack of x86-64, and say nothing
# elsewhere.
ATTRIBUTES = ("probe-stack", "stack-probe-size", "target-cpu")
# On wasm64 the kit keeps clang from making loops into calls of these, which no C library answers there.
NO_CALLS = '"no-builtin-bcmp" "no-builtin-memcmp" "no-builtin-strlen"'
# What the lowered module may have beside what WebAssembly has had from the start.
FEATURES = ("bulk-memory", "extended-const", "multivalue", "mutable-globals", "nontrapping-float-to-int", "sign-ext")


class Unknown(Exception):
    """The module, or the kit, has what isn't known here."""


def retargeted(text: str) -> str:
    """The text of an LLVM module for x86-64 as one for wasm64."""
    stop_on_unknown(text)
    text = replaced(r"^target datalayout = .*$", f'target datalayout = "{LAYOUT}"', text)
    text = replaced(r"^target triple = .*$", f'target triple = "{TRIPLE}"', text)
    text = re.sub(r'"target-cpu"="[^"]*"', f'{NO_CALLS} "target-cpu"="{CPU}"', text)
    for name in HEAP:
        said = f'"wasm-import-module"="heap" "wasm-import-name"="{name}"'
        text = replaced(rf"^(declare .*@{name}\(.*?\))( #\d+)$", rf"\1 {said}\2", text)
    return replaced(rf"^(define .*@{EXPORT}\(.*?\))( #\d+ {{)$", rf'\1 "wasm-export-name"="{EXPORT}"\2', text)


def replaced(pattern: str, new: str, text: str) -> str:
    """The text with the one place that the pattern has changed."""
    text, found = re.subn(pattern, new, text, flags=re.M)
    if found != 1:
        raise Unknown(f"{pattern} stands {found} times, and not once")
    return text


def stop_on_unknown(text: str) -> None:
    """Stops where the module has what is of one processor, or calls what no import answers."""
    if re.search(r"\b(asm|x86_\w+|ppc_\w+|thread_local|addrspace)\b", without_strings(text)):
        raise Unknown("the module has code, types or memory of one processor")
    outside = set(re.findall(r'^declare .*?@"?([^"(]+)"?\(', text, re.M)) - set(HEAP)
    outside = {name for name in outside if not re.match(rf"llvm\.({'|'.join(map(re.escape, INTRINSICS))})(\.|$)", name)}
    if outside:
        raise Unknown(f"the module calls {', '.join(sorted(outside))}")
    rows = "\n".join(re.findall(r"^attributes .*$", text, re.M))
    others = set(re.findall(r'"([^"]+)"(?:="[^"]*")?', rows)) - set(ATTRIBUTES)
    if others:
        raise Unknown(f"functions have the attributes {', '.join(sorted(others))}")
    shared = [row for row in re.findall(r"^@.*$", text, re.M) if not re.search(r" = (private|internal) ", row)]
    if shared:
        raise Unknown(f"others may name what stands in memory: {shared[0]}")


def without_strings(text: str) -> str:
    """The text without what stands in quotes."""
    return re.sub(r'"[^"\n]*"', '""', text)


def wide_module(kit: str, module: str, words: list[str], folder: str) -> str:
    """Compiles and links an LLVM module for wasm64, by the words that the kit says to clang there: the file made."""

    def run(*call: str) -> None:
        subprocess.run(call, check=True, cwd=folder)

    clang = f"{kit}/toolchain/bin/clang"
    # The object file keeps the names of its sources: so they are the same at each place.
    Path(folder, "module.bc").write_bytes(Path(module).read_bytes())
    run(clang, "-S", "-emit-llvm", "-Xclang", "-disable-llvm-passes", "-x", "ir", "module.bc", "-o", "printed.ll")
    text = retargeted(Path(folder, "printed.ll").read_text("utf-8"))
    Path(folder, "module.ll").write_text(text, "utf-8")
    run(clang, *words, "-c", "-x", "ir", "module.ll", "-o", "module.o", "-O3")
    run(f"{kit}/toolchain/bin/llvm-ar", "rcsD", "module.a", "module.o")
    run(f"{kit}/bin/rattle-link", "--target", TRIPLE, "--toolchain", f"{kit}/toolchain", "--stack", str(STACK),
        "-o", "wide.wasm", "module.a")
    return os.path.join(folder, "wide.wasm")


def narrow(wide: str, out: str) -> None:
    """Cuts the memory of a module to 32 bits, and changes nothing else.

    A module whose memory has 64 bits runs in the newest browsers only. Binaryen is a known tool, and its module is
    smaller than that of a script of our own.
    """
    features = [f"--enable-{name}" for name in (*FEATURES, "memory64")]
    subprocess.run(["wasm-opt", *features, "--memory64-lowering", wide, "-o", out], check=True)
