"""What pyproject.toml can't say: the module in C, which is one for each Python from 3.8 on.

tools/package and tools/portable compile it for the wheels; where it is, that one is taken. Where the folder
libs2union is, as in what tools/portable makes, the library is compiled into the module by the C compiler's driver.
Else s2union.h is looked for in the folder $S2UNION_INCLUDE, by pkg-config, and in the compiler's own places, and the
library is needed at run time.

The land of the world, which maps in a notebook have below unions, lies in page/ of a checkout. There tools/methods.py
makes calls.h, which is compiled, and _library.pyi, _rooms.py and docstrings, which are packed: by Python 3.11 or later,
this one or Debian's. Where these aren't, as in what the packagers make, all of it is beside the module already, or maps
have no land.
"""
import os
import shutil
import subprocess
import sys
from pathlib import Path

from setuptools import Distribution, Extension, setup
from setuptools.command.build_ext import build_ext
from setuptools.command.build_py import build_py


class Compiled(Distribution):
    """A distribution for one platform, also if its module is compiled already."""

    def has_ext_modules(self):
        return True


TOP = Path(__file__).resolve().parent / "../.."
MAKER = TOP / "tools/methods.py"


def make(folder, *names):
    """Makes files of the module in a folder, if this is a checkout."""
    if MAKER.exists():
        python = sys.executable if sys.version_info >= (3, 11) else "/usr/bin/python3"
        sources = [Path("s2union", name).resolve() for name in names]
        subprocess.run([python, "-B", MAKER, folder, *sources], check=True)


class Assembling(build_ext):
    """Builds a module of assembler too, which the C compiler's driver takes, with the calls that are made."""

    def build_extensions(self):
        make(self.build_temp, "calls.h")
        self.compiler.add_include_dir(self.build_temp)
        self.compiler.src_extensions.append(".S")
        super().build_extensions()


class OfCheckout(build_py):
    """Takes from a checkout the land of the world, and what is made of the module."""

    def run(self):
        super().run()
        land, folder = TOP / "page/land.cells", Path(self.build_lib, "s2union_geo")
        if land.exists() and folder.is_dir():  # which isn't there if the module is used where it lies
            shutil.copyfile(land, folder / land.name)
        if folder.is_dir():
            make(Path(self.build_lib, "s2union"), "__init__.py", "_library.pyi", "_rooms.py")


def include():
    if carried:
        return ["libs2union"]
    given = os.environ.get("S2UNION_INCLUDE")
    if given:
        return [given]
    try:
        said = subprocess.run(["pkg-config", "--variable=includedir", "s2union"], capture_output=True, text=True)
    except OSError:
        return []
    return said.stdout.split()


ready = any((Path(__file__).parent / "s2union").glob("_library.*[od]"))  # .abi3.so, or .pyd on Windows
carried = [f"libs2union/{name}" for name in ("s2union.S", "blocks.c", "heap.c")]
if not (Path(__file__).parent / carried[0]).exists():
    carried = []
module = Extension("s2union._library", ["s2union/_library.c", *carried],
                   depends=["s2union/calls.h", "s2union/places.h"], include_dirs=include(), libraries=["m"],
                   define_macros=[("S2UNION_WITHIN", None)] if carried else [], py_limited_api=True,
                   extra_link_args=["-Wl,-Bsymbolic"] if carried and sys.platform == "linux" else [],
                   extra_compile_args=["-std=gnu11", "-fvisibility=hidden", "-ffp-contract=off"])
setup(distclass=Compiled, ext_modules=[] if ready else [module],
      cmdclass={"build_ext": Assembling, "build_py": OfCheckout}, options={"bdist_wheel": {"py_limited_api": "cp38"}})
