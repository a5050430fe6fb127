"""tools/release --check passes a release that is whole, and refuses one with a mistake that is planted in it."""
import hashlib
import json
import os
import re
import shutil
import subprocess
import tempfile
import unittest

from process import PROGRAM, SECONDS, TOP, ran

PAGE = """# The release of version {version}

- Version: `{version}`
- Commit: `{one}`
- Kit: `a kit`
- Sources: `{two}`
""".format(version="7.8.9", one="1" * 40, two="2" * 64)
MADE = f"Made from commit {'1' * 10}.\n"
CHANGES = f"# Changes\n\n## 7.8.9 (2026-11-28)\n\n{MADE}\nAll.\n\n## 7.8.8 (2026-11-27)\n\n{MADE}"
FILES = {"README.md": PAGE, "s2calc": "#!/bin/sh\necho s2calc 7.8.9\n", "s2union-7.8.9-x86_64-linux.tar.xz": "tar",
         "s2calc_7.8.9_amd64.deb": "deb", "aarch64/s2calc": "arm", "aarch64/s2calc_7.8.9_arm64.deb": "deb for arm"}


# What stands for tools/package: both tarballs with the program and the page, and what a release doesn't take.
PACKAGE = """version=$(cat VERSION) room=$(mktemp -d)
mkdir -p "$room/s2union/share/s2union/page" "$1/aarch64" && cp "$PROGRAM" "$room/s2union/s2calc"
printf '\\177ELF' >"$room/s2union/libs2union.so"
echo page >"$room/s2union/share/s2union/page/index.html"
for at in x86_64/. aarch64/aarch64; do
  tar -C "$room" -cJf "$1/${at#*/}/s2union-$version-${at%/*}-linux.tar.xz" s2union
  touch "$1/${at#*/}/s2union-$version-${at%/*}.jar"
done
touch "$1/aarch64/s2union-doc_${version}_all.deb"
rm -r "$room"
"""


class Release(unittest.TestCase):
    """The release of a repository that has nothing else."""

    def setUp(self):
        self.room = tempfile.mkdtemp()
        self.addCleanup(shutil.rmtree, self.room)
        for name in ("tools/release", "tools/usage.sh", "tests/steps.sh"):
            os.makedirs(os.path.dirname(os.path.join(self.room, name)), exist_ok=True)
            shutil.copy(os.path.join(TOP, name), os.path.join(self.room, name))
        self.write("VERSION", "7.8.9\n")
        self.write("CHANGELOG.md", CHANGES)
        self.release(FILES)

    def write(self, name, text):
        path = os.path.join(self.room, name)
        os.makedirs(os.path.dirname(path), exist_ok=True)
        with open(path, "w", encoding="utf-8") as it:
            it.write(text)
        os.chmod(path, 0o755)

    def release(self, files):
        shutil.rmtree(os.path.join(self.room, "dist"), ignore_errors=True)
        sums = {"": "", "aarch64": ""}
        for name, text in sorted(files.items()):
            self.write(f"dist/{name}", text)
            folder, file = os.path.split(name)
            sums[folder] += f"{hashlib.sha256(text.encode()).hexdigest()}  {file}\n"
        for folder, text in sums.items():
            self.write(os.path.join("dist", folder, "SHA256SUMS"), text)

    def refused(self, *words, **environment):
        """What the check refuses."""
        done = subprocess.run(["tools/release", *words], cwd=self.room, capture_output=True, text=True, check=False,
                              timeout=SECONDS, env={**os.environ, **environment})
        refused = re.findall(r"^FAILED (.*)", done.stdout, re.M)
        self.assertEqual(done.returncode, bool(refused), done.stdout + done.stderr)
        return refused

    def test_one_that_is_whole(self):
        self.assertEqual(self.refused("--check"), [])
        shutil.rmtree(os.path.join(self.room, "dist"))
        self.assertEqual(self.refused("--check"), [])

    def test_files_that_are_others(self):
        changed, more = "each file is the one of its checksum", "no other file is there"
        for name, text, wanted in (("s2calc_7.8.9_amd64.deb", "another", [changed]), ("more_7.8.9.deb", "more", [more]),
                                   ("aarch64/s2calc_7.8.9_arm64.deb", "another", [changed]),
                                   ("aarch64/more_7.8.9.deb", "more", [more]),
                                   ("other/more_7.8.9.deb", "more", [more])):
            self.release(FILES)
            self.write(f"dist/{name}", text)
            self.assertEqual(self.refused("--check"), wanted, name)
        self.release(FILES)
        os.remove(os.path.join(self.room, "dist/aarch64/s2calc"))
        self.assertEqual(self.refused("--check"), [changed, more])
        self.release(FILES)
        os.symlink("s2calc", os.path.join(self.room, "dist/calculator"))
        self.assertEqual(self.refused("--check"), [more])
        self.release({**FILES, "s2union-7.8.9.html": FILES["s2calc"]})
        os.remove(os.path.join(self.room, "dist/s2union-7.8.9.html"))
        os.symlink("s2calc", os.path.join(self.room, "dist/s2union-7.8.9.html"))
        self.assertEqual(self.refused("--check"), [more], "a link by a name of SHA256SUMS")

    def test_versions_that_are_others(self):
        one, says = "one version", "the program for x86-64 says its version"
        for name, text, wanted in (("s2union-7.8.8.jar", "jar", [one]), ("aarch64/s2union-7.8.8.whl", "wheel", [one]),
                                   ("s2calc", "#!/bin/sh\necho s2calc 7.8.8\n", [says]),
                                   ("README.md", PAGE.replace("7.8.9", "7.8.8"), [one, says])):
            self.release({**FILES, name: text})
            self.assertEqual(self.refused("--check")[:len(wanted)], wanted, name)
        self.release({**FILES, "README.md": PAGE.replace("1" * 40, "1" * 39)})
        self.assertEqual(self.refused("--check"), ["dist/README.md names version, commit, kit and sources"])
        self.release({**FILES, "s2union-7.8.9.html": "x" * 10_700_000})
        self.assertEqual(self.refused("--check"), ["at most 10700000 bytes"])

    def test_a_version_without_its_date(self):
        for head in "## 7.8.9", "## 7.8.8 (2026-11-28)", "## 7.8.9 (soon)":
            self.write("CHANGELOG.md", f"# Changes\n\n{head}\n\n## 7.8.9 (2026-11-27)\n\n{MADE}")
            self.assertEqual(self.refused("--check"), ["CHANGELOG.md begins with version 7.8.9 and its date"])

    def commit(self):
        """Commits all of it, and answers the day."""
        how = {"cwd": self.room, "check": True, "capture_output": True, "timeout": SECONDS, "text": True}
        for words in (["init", "-q"], ["add", "-A"],
                      ["-c", "user.name=x", "-c", "user.email=x@x", "commit", "-q", "--allow-empty", "-m", "All"]):
            subprocess.run(["git", *words], **how)
        words = ["git", "log", "-1", "--format=%cd", "--date=format-local:%F"]
        return subprocess.run(words, env={**os.environ, "TZ": "UTC"}, **how).stdout.strip()

    def test_the_kit_that_built_it(self):
        """A release, by tools that stand for the project's, names the kit by which both libraries were proved: any one
        whose logic the file KIT names."""
        version = ran("--version")[1].decode().split()[-1]
        for name, text in (("tools/package", PACKAGE), ("tools/packaging/glibc.sh", ""),
                           ("bindings/java/package", 'mkdir "$1" && python3 -m zipfile -c "$1/s2union.jar" VERSION'),
                           ("tools/portable", 'mkdir "$1" && touch "$1/s2union-$(cat VERSION)-source.tar.xz"'),
                           ("bin/rt", "echo a-kit-3 logic 5"),
                           *((f"bin/{tool}", "") for tool in ("javac", "aarch64-linux-gnu-gcc", "musl-gcc",
                                                              "x86_64-w64-mingw32-gcc"))):
            self.write(name, f"#!/bin/sh\n{text}\n")
        for name, text in (("VERSION", f"{version}\n"), ("KIT", "a-kit-1 logic 5\na-kit-2 logic 5\n"),
                           (".gitignore", "crates\ndist\n"),
                           ("tools/sources.sh", f"checksum() {{ echo {'7' * 64}; }}\n")):
            self.write(name, text)
        self.write("CHANGELOG.md", f"# Changes\n\n## {version} ({self.commit()})\n")
        self.commit()
        given = {"PATH": f"{self.room}/bin:{os.environ['PATH']}", "PROGRAM": PROGRAM}
        two = ["one kit of that logic has proved the libraries"]
        for one, other, refused in (("3 logic 5", "3 logic 5", []), ("3 logic 5", "2 logic 5", two),
                                    ("3 logic 55", "3 logic 55", two)):
            for folder, kit in ("", one), ("aarch64", other):
                record = json.dumps({"sources": "", "kit": f"a-kit-{kit}", "parts": {}})
                self.write(os.path.join("crates/s2union_c/out", folder, "archive.json"), record)
            self.commit()  # what tools/release has written into CHANGELOG.md
            self.assertEqual(self.refused(**given), refused)
            with open(os.path.join(self.room, "dist/README.md"), encoding="utf-8") as it:
                self.assertIn("\n- Kit: `a-kit-3 logic 5`\n", it.read())
        self.write("KIT", "a-kit-3 logic 6\n")
        self.commit()
        self.assertEqual(self.refused(**given), ["the kit has the logic that the file KIT names"])

    def test_what_was_proved_of_other_sources(self):
        """It isn't taken for what the commit of a release makes."""
        with open(os.path.join(self.room, "tools/release"), encoding="utf-8") as it:
            release = it.read()
        said = os.path.join(self.room, "said")
        self.write(".gitignore", "dist\nsaid\ncrates\n")
        self.write("tools/sources.sh", 'checksum() { cat "$top/source"; }\n')
        self.write("source", "one")
        self.write("tools/release", f"""#!/bin/sh
            top=$(dirname "$0")/..
            ls "$top/crates/calculator/out" 2>/dev/null >"{said}"
            cp -r "{self.room}/dist" "$top/dist"
        """)
        self.commit()
        commit = subprocess.run(["git", "rev-parse", "HEAD"], cwd=self.room, check=True, capture_output=True,
                                timeout=SECONDS, text=True).stdout.strip()
        self.write("tools/release", release)
        self.write("crates/calculator/out/calculator", "proved")
        for source, found in (("one", "calculator\n"), ("two", "")):
            self.write("source", source)
            self.write("CHANGELOG.md", CHANGES.replace("1" * 10, commit[:10]))
            self.commit()
            self.release({**FILES, "README.md": PAGE.replace("1" * 40, commit)})
            self.assertEqual(self.refused("--again"), [])
            with open(said, encoding="utf-8") as it:
                self.assertEqual(it.read(), found, source)

    def test_a_tree_that_is_not_clean(self):
        """Then nothing is made, and what was released stays."""
        self.commit()
        self.write("more", "more")
        self.assertIn("nothing is changed that isn't committed", self.refused())
        self.assertEqual(self.refused("--check"), [])
