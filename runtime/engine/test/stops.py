"""What the making of the module has to stop at: changed texts of LLVM, changed modules and changed words of the kit."""
from collections.abc import Callable, Iterator, Sequence

import kit
import retarget
import sections

# A module of LLVM of the form that is known.
LLVM = """target datalayout = "e-m:e-i64:64"
target triple = "x86_64-unknown-linux-gnu"
@words = private unnamed_addr constant [3 x i8] c"asm"
declare { i64, i64 } @rattle_alloc(i64 noundef, i64 noundef) #1
declare { i64, i64 } @rattle_realloc(ptr noundef, i64 noundef, i64 noundef, i64 noundef) #1
declare void @rattle_dealloc(ptr noundef) #1
declare i64 @llvm.ctpop.i64(i64) #1
define noundef i32 @coop_run(ptr noundef %a0, i64 noundef %a1) #0 {
  ret i32 0
}
attributes #0 = { nounwind "probe-stack"="inline-asm" "target-cpu"="x86-64" }
attributes #1 = { nobuiltin nounwind }
"""
# Each has one thing that isn't known, behind what stands in the place of it above.
UNKNOWN_LLVM = [
    ("declare i64 @llvm.ctpop.i64(i64)", "declare i64 @llvm.x86.sse42.crc32.64.64(i64, i64)"),
    ("declare i64 @llvm.ctpop.i64(i64)", "declare i64 @llvm.fshl.i64(i64, i64, i64)"),
    ("declare i64 @llvm.ctpop.i64(i64)", "declare i64 @strlen(ptr)"),
    ("declare i64 @llvm.ctpop.i64(i64)", 'declare i64 @"a name"(ptr)'),
    ("declare void @rattle_dealloc(ptr noundef) #1\n", ""),
    ("  ret i32 0", '  call void asm sideeffect "nop", ""()\n  ret i32 0'),
    ("  ret i32 0", "  %r = alloca x86_fp80\n  ret i32 0"),
    ("  ret i32 0", "  %r = load i8, ptr addrspace(256) null\n  ret i32 0"),
    ("private unnamed_addr", "thread_local"),
    ("private unnamed_addr constant", "global"),
    ('"probe-stack"="inline-asm"', '"patchable-function"="prologue-short-redirect"'),
    ("@coop_run", "@other_run"),
    ("target triple = ", "target other = "),
]


def small_module(
    *, memory: bytes = b"\0\2", asked: bytes = b"", more: bytes = b"", call: bytes = b"coop_run",
    kept: Sequence[bytes] = (), code: bytes = b"\0",
) -> bytes:
    """A module of the form that the host takes, whose call traps."""
    def section(number: int, *parts: bytes) -> bytes:
        data = sections.coded(len(parts)) + b"".join(parts)
        return bytes([number]) + sections.coded(len(data)) + data

    def name(text: bytes) -> bytes:
        return sections.coded(len(text)) + text

    i32, i64 = b"\x7f", b"\x7e"
    imports = section(sections.IMPORTS, name(b"heap") + name(asked) + b"\0\0") if asked else b""
    called = bytes([1 if asked else 0])
    return sections.with_makers(b"\0asm\1\0\0\0" + b"".join([
        section(1, b"\x60\7" + i64 * 7 + b"\1" + i32), imports, section(3, b"\0"), more,
        section(sections.MEMORIES, memory), section(sections.GLOBALS, i64 + b"\0\x42\x10\x0b", *kept),
        section(sections.EXPORTS, name(b"memory") + b"\2\0", name(b"__heap_base") + b"\3\0",
                name(call) + b"\0" + called),
        section(sections.CODE, name(b"\0" + code + b"\x0b")),
    ]), "nobody" * 200)


def stops(what: Callable[[], object]) -> bool:
    """Whether a call stops at what it is given."""
    try:
        what()
    except (retarget.Unknown, sections.Unknown, kit.Other):
        return True
    return False


def faults_of_stops() -> Iterator[str]:
    """Where a known form is stopped at, or an unknown one isn't."""
    def checked(module: bytes) -> Callable[[], object]:
        return lambda: sections.stop_on_unknown(module, retarget.HEAP, retarget.EXPORT)

    if stops(lambda: retarget.retargeted(LLVM)):
        yield "the known module of LLVM is stopped at"
    for known, unknown in UNKNOWN_LLVM:
        if not stops(lambda: retarget.retargeted(LLVM.replace(known, unknown))):
            yield f"a module of LLVM with {unknown} isn't stopped at"
    one = b"\x7e\1\x42\x80\x80\x40\x0b"
    for module in (small_module(), small_module(asked=b"rattle_alloc"), small_module(kept=[one])):
        if stops(checked(module)):
            yield "the known module of WebAssembly is stopped at"
    others = {"a memory of 64 bits": small_module(memory=b"\4\2"), "a shared memory": small_module(memory=b"\3\2\4"),
              "another import": small_module(asked=b"fetch"), "another export": small_module(call=b"other_run"),
              "a table": small_module(more=b"\4\4\1\x70\0\1"), "two globals": small_module(kept=[one, one]),
              "a global that another begins": small_module(kept=[b"\x7e\0\x23\0\x0b"]),
              "memory.size": small_module(code=b"\x41\0\x1a\x3f\0\x1a"), "a vector": small_module(code=b"\xfd\x0f")}
    for name, module in others.items():
        if not stops(checked(module)):
            yield f"a module with {name} isn't stopped at"
    for words in (kit.NATIVE, kit.WASM):
        if stops(lambda: kit.stop_on_other_words(list(words), words)):
            yield "the known words to clang are stopped at"
        if not stops(lambda: kit.stop_on_other_words([*words, "-ffast-math"], words)):
            yield "other words to clang aren't stopped at"
