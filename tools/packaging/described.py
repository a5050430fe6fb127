#!/usr/bin/env python3
"""Puts beside the sources of a package what a registry asks for: described FOLDER PAGE. FOLDER gets LICENSE, and the
page, by its path from the top of the repository, as README.md. Its manifest (Cargo.toml, package.json, pyproject.toml
or pom.xml) gets the address of the repository, which stands in CITATION.cff alone, as `repository-code`; the pom also
gets the version, and the name of a group that the owner of the address has: the parts of its host, the other way round.
"""
import json
import re
import shutil
import sys
from pathlib import Path

import documents

TOP = Path(__file__).resolve().parents[2]


def address():
    return re.search(r"^repository-code: (\S+)$", (TOP / "CITATION.cff").read_text(), re.M)[1]


def in_cargo(text):
    more = f'repository = "{address()}"\nreadme = "README.md"'
    return re.sub(r"^(license = .*)$", rf"\1\n{more}", text, count=1, flags=re.M)


def in_json(text):
    packed = json.loads(text)
    packed["repository"] = {"type": "git", "url": f"git+{address()}"}
    return json.dumps(packed, indent=2) + "\n"


def in_toml(text):
    return text.replace("\n[tool.setuptools.dynamic]", f'\n[project.urls]\nRepository = "{address()}"\n'
                        "\n[tool.setuptools.dynamic]", 1)


def in_pom(text):
    host = address().split("/")[2]
    words = {"ADDRESS": address(), "GROUP": ".".join(reversed(host.split("."))),
             "VERSION": (TOP / "VERSION").read_text().strip()}
    return re.sub(r"@([A-Z]+)@", lambda found: words[found[1]], text)


MANIFESTS = {"Cargo.toml": in_cargo, "package.json": in_json, "pyproject.toml": in_toml, "pom.xml": in_pom}


def main(folder, page):
    folder = Path(folder)
    for name in MANIFESTS.keys() & {path.name for path in folder.iterdir()}:
        manifest = folder / name
        manifest.write_text(MANIFESTS[name](manifest.read_text()))
    documents.main(["--beside", folder, page])
    (folder / documents.beside(page)).rename(folder / "README.md")
    shutil.copyfile(TOP / "LICENSE", folder / "LICENSE")


if __name__ == "__main__":
    main(*sys.argv[1:])
