"""The library for C, compiled from its sources without a proof: an object file with its calls.

A trial compiles programs alone. So a copy of the crate becomes a program that makes each call once; what the trial
gives to the compiler is kept, its calls get their names of C, and it is compiled once more.
"""
import os
import re
import shutil
import subprocess
import tempfile

from over_gate import KIT, MODULE, build_unproved, crate_of

STRUCTURE = re.compile(r"^#\[repr\(C\)\]\n(?:#.*\n)*pub struct (\w+) \{\n(.*?)^\}", re.S | re.M)
EXPORT = re.compile(r'^pub extern "C" fn (s2u_\w+)\((.*?)\) -> \w+$', re.S | re.M)
ARGUMENT = re.compile(r"(\w+): (&mut |&|)(\[?\w+\]?)")
CLANG = [os.path.join(os.path.dirname(KIT), "toolchain", "bin", "clang"), "-march=x86-64-v2",
         "--target=x86_64-unknown-linux-gnu", "-x", "ir"]


def read(path):
    with open(path, encoding="utf-8") as it:
        return it.read()


def write(path, text):
    with open(path, "w", encoding="utf-8") as it:
        it.write(text)


def call(module, name, words, structures):
    """A line that makes a call, of empty lists and zeros."""
    variables, given = [], []
    for argument, mode, kind in ARGUMENT.findall(words):
        if kind == "Global":
            given.append("rt.alloc()")
        elif kind.startswith("["):
            given.append(f"{mode}[]")
        elif mode:
            variables.append(f"let mut {argument} = {structures.get(kind, '0')};")
            given.append(f"{mode}{argument}")
        else:
            given.append("0.0" if kind == "f64" else "0")
    return f"    {' '.join(variables)} if {module}::{name}({', '.join(given)}) == 1 {{ odd = !odd; }}"


def become_program(source):
    """Makes a program of the sources: one that makes each call."""
    texts = {name[:-3]: read(os.path.join(source, name)) for name in sorted(os.listdir(source))}
    structures = {}
    for module, text in texts.items():
        for name, fields in STRUCTURE.findall(text):
            zeros = ", ".join(f"{field}: 0" for field in re.findall(r"pub (\w+):", fields))
            structures[name] = f"{module}::{name} {{ {zeros} }}"
    made = [call(module, *it, structures) for module, text in texts.items() for it in EXPORT.findall(text)]
    main = ["fn main(rt: HostRuntime) {", "    let mut odd = false;", *made, "}", ""]
    write(os.path.join(source, "main.rt"), "\n".join([texts["lib"], *main]))
    os.remove(os.path.join(source, "lib.rt"))


def copy_of(top, to):
    """A copy of the crates, in which the library for C is a program."""
    shutil.copytree(os.path.join(top, "crates"), os.path.join(to, "crates"), ignore=shutil.ignore_patterns("out"))
    write(os.path.join(to, "crates.txt"), read(os.path.join(top, "crates.txt")).replace(" staticlib:", ":"))
    shutil.copy(os.path.join(top, "HANDLES"), to)
    become_program(os.path.join(to, "crates", "s2union_c", "src"))
    return crate_of("s2union_c", to)


def text_of_calls(top):
    """What LLVM compiles of the calls of the library for C without a proof, as a text; none if they don't build."""
    with tempfile.TemporaryDirectory() as room:
        module, text = os.path.join(room, "module.bc"), os.path.join(room, "module.ll")
        if not build_unproved(copy_of(top, os.path.join(room, "copy")), module, MODULE):
            return ""
        subprocess.run([*CLANG, "-S", "-emit-llvm", module, "-o", text], check=True)
        calls = re.sub(r"^define [^\n]*@main\(.*?^}\n|^declare [^\n]*@__sysv_signal\([^\n]*\n", "", read(text),
                       flags=re.S | re.M)
        calls = calls.replace(' sanitize_address "frame-pointer"="all"', " nounwind")
        named = re.sub(r'@"s2union_c::\w+::(s2u_\w+)"', r"@\1", calls)
        return re.sub(r"define internal (noundef \w+ @s2u_)", r"define \1", named)


def build_calls(top, to):
    """Compiles the calls of the library for C without a proof, and answers whether it did."""
    with tempfile.TemporaryDirectory() as room:
        text = os.path.join(room, "module.ll")
        write(text, text_of_calls(top))
        return os.path.getsize(text) > 0 and not subprocess.call([*CLANG, "-O2", "-fPIC", "-c", text, "-o", to])
