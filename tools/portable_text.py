"""What LLVM was given when tools/archive proved and built the library, as a text that names no processor.
tools/portable packs it as a source for other systems, and tools/page makes the module for WebAssembly of it. A word in
the text that this doesn't know how to carry over is an error."""
import re
import shutil
import subprocess
import tempfile
from pathlib import Path

TOP = Path(__file__).resolve().parents[1]
VERSION = (TOP / "VERSION").read_text(encoding="utf-8").strip()
BITCODE = TOP / "crates" / "s2union_c" / "out" / "s2union_c.bc"
HEADER = TOP / "crates" / "s2union_c" / "include" / "s2union.h"
# What the proved code calls of C, through pointers: blocks.c has the three functions.
HEAP = """
declare hidden void @s2u_block_take(ptr, i64, i64)
declare hidden void @s2u_block_grow(ptr, ptr, i64, i64, i64)
declare hidden void @s2u_block_give_back(ptr)

define internal { i64, i64 } @rattle_alloc(i64 %size, i64 %align) nounwind {
  %block = alloca { i64, i64 }, align 8
  call void @s2u_block_take(ptr %block, i64 %size, i64 %align)
  %pair = load { i64, i64 }, ptr %block, align 8
  ret { i64, i64 } %pair
}

define internal { i64, i64 } @rattle_realloc(ptr %at, i64 %kept, i64 %size, i64 %align) nounwind {
  %block = alloca { i64, i64 }, align 8
  call void @s2u_block_grow(ptr %block, ptr %at, i64 %kept, i64 %size, i64 %align)
  %pair = load { i64, i64 }, ptr %block, align 8
  ret { i64, i64 } %pair
}

define internal void @rattle_dealloc(ptr %at) nounwind {
  call void @s2u_block_give_back(ptr %at)
  ret void
}
"""
OF_HEAP = {"rattle_alloc", "rattle_realloc", "rattle_dealloc"}
# An instruction of x86-64 by which simdutf8 looks up sixteen bytes at once, and what does the same on each processor.
SHUFFLE, SHUFFLED = "llvm.x86.ssse3.pshuf.b.128", "s2u_shuffled"
OF_A_PROCESSOR = re.compile(r"@llvm\.(?:x86|aarch64|arm|riscv|ppc|s390|wasm)\.")


class NotPortable(Exception):
    """Why there is no such text."""


def toolchain():
    """The folder of the compiler and the linker of Rattle's kit."""
    command = shutil.which("rt")
    if not command:
        raise NotPortable("Rattle's kit is missing, whose clang compiles the text: its command rt is not on the PATH")
    return Path(command).resolve().parents[1] / "toolchain" / "bin"


def clang(*words):
    subprocess.run([toolchain() / "clang", *words], check=True)


def calls():
    """The names of the calls of s2union.h, without those that a host defines."""
    return sorted(set(re.findall(r"^u?int\d+_t (s2u_\w+)\(", HEADER.read_text(encoding="utf-8"), re.M)))


def plain_names(text):
    """The text with names of letters, digits and underscores, as each assembler takes them."""
    names = {}

    def plain(found):
        name = found[1]
        if name not in names:
            word = re.sub(r"\W+", "_", name, flags=re.A).strip("_")
            names[name] = word if word not in names.values() else f"{word}_{len(names)}"
        return f"@{names[name]}"

    return re.sub(r'@"([^"]+)"', plain, text)


def shuffled():
    """A function of the bytes at the sixteen places that the other bytes name, from 0 on; one above 127 names none, and
    is answered by 0."""
    lines = [f"define internal <16 x i8> @{SHUFFLED}(<16 x i8> %bytes, <16 x i8> %places) nounwind {{",
             "  %made0 = insertelement <16 x i8> %bytes, i8 0, i32 0"]
    for at in range(16):
        lines += [f"  %place{at} = extractelement <16 x i8> %places, i32 {at}",
                  f"  %low{at} = and i8 %place{at}, 15",
                  f"  %index{at} = zext i8 %low{at} to i32",
                  f"  %byte{at} = extractelement <16 x i8> %bytes, i32 %index{at}",
                  f"  %none{at} = icmp slt i8 %place{at}, 0",
                  f"  %found{at} = select i1 %none{at}, i8 0, i8 %byte{at}",
                  f"  %made{at + 1} = insertelement <16 x i8> %made{at}, i8 %found{at}, i32 {at}"]
    return "\n".join([*lines, "  ret <16 x i8> %made16", "}", ""])


def without_attributes(text):
    """The text without what names a processor, and without what older versions of LLVM can't read and newer ones know
    by themselves of the functions that LLVM has."""
    left_out = r"^(?:target|source_filename) .*\n|^; .*\n|^!llvm\.ident = .*\n| +; preds = .*"
    text = re.sub(left_out, "", text, flags=re.M)
    text = re.sub(r' "(?:target-cpu|probe-stack|stack-probe-size|tune-cpu)"="[^"]*"', "", text)
    text = re.sub(r"^(declare .*?)(?: #\d+)?$", r"\1", text, flags=re.M)
    text = re.sub(r" (?:captures\(none\)|writeonly|readonly)(?=[ ,)])", "", text)
    text = text.replace("getelementptr inbounds nuw ", "getelementptr inbounds ")
    text = text.replace(" = ptrtoaddr ", " = ptrtoint ")  # which older versions call so
    for attributes in re.findall(r"^attributes #\d+ = \{(.*)\}$", text, re.M):
        if '"' in attributes:
            raise NotPortable(f"unknown attributes: {attributes}")
    used = set(re.findall(r" (#\d+)\b", re.sub(r"^attributes .*\n", "", text, flags=re.M)))
    return re.sub(r"^attributes (#\d+) = .*\n", lambda it: it[0] if it[1] in used else "", text, flags=re.M)


def portable(text):
    """What LLVM was given, as a text for each system with addresses of 64 bits, the least byte first."""
    text = plain_names(without_attributes(text))
    for name in OF_HEAP:
        text, found = re.subn(rf"^declare .*@{name}\(.*\n", "", text, flags=re.M)
        if found > 1:
            raise NotPortable(f"{name} is declared {found} times")
    text, shuffles = re.subn(rf"^declare .*@{re.escape(SHUFFLE)}\(.*\n", "", text, flags=re.M)
    text = text.replace(f"@{SHUFFLE}(", f"@{SHUFFLED}(") + (shuffled() if shuffles else "")
    # A result of 32 bits fills a register by its sign, as some processors expect it, which others don't look at.
    text = re.sub(r"^define (?:noundef )?i32 (@s2u_\w+\()", r"define signext i32 \1", text, flags=re.M)
    others = set(re.findall(r"^declare .*@([\w.]+)\(", text, re.M))
    if OF_A_PROCESSOR.search(text) or any(not name.startswith("llvm.") for name in others):
        raise NotPortable(f"it calls what other processors or systems lack: {' '.join(sorted(others))}")
    exported = set(re.findall(r"^define (?!internal|private).*?@(\w+)\(", text, re.M))
    if exported != set(calls()):
        raise NotPortable(f"its calls aren't those of s2union.h: {' '.join(sorted(exported ^ set(calls())))}")
    head = f"; libs2union {VERSION}, proved: LLVM's own form, for clang from version 15 on. blocks.c has its memory.\n"
    return head + re.sub(r"\n{3,}", "\n\n", text).strip() + "\n" + HEAP


def text_of(module):
    """The text of a module in LLVM's own form."""
    with tempfile.TemporaryDirectory() as room:
        text = Path(room, "module.ll")
        clang("-S", "-emit-llvm", "-x", "ir", module, "-O0", "-Xclang", "-disable-llvm-passes", "-o", text)
        return portable(text.read_text(encoding="utf-8"))
