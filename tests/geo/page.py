"""The commands of a page, each with the output that the page shows, in one folder in which they run in turn."""
import os
import re
import shutil
import subprocess
import tempfile
import unittest

TOP = os.path.dirname(os.path.dirname(os.path.dirname(os.path.realpath(__file__))))


def commands(text):
    """The command and the output of each prompt in the text blocks of a page. A command goes on to the end of its
    here-document, or in lines that end with a backslash."""
    blocks = re.findall(r"^```text\n(\$ .*?)^```$", text, re.S | re.M)
    command = r"^\$ ((?:.*\\\n)*.*<<'(\w+)'.*\n(?:.*\n)*?\2\n|(?:.*\\\n)*.*\n)"
    for block in blocks:
        parts = re.split(command, block, flags=re.M)
        yield from zip(parts[1::3], parts[3::3])


def furnish(room):
    """Puts what the commands name into a folder: the pages' files, and the calculator."""
    os.symlink(os.path.join(TOP, "docs"), os.path.join(room, "docs"))
    os.symlink(os.path.join("docs", "examples"), os.path.join(room, "examples"))
    os.symlink(os.environ["S2CALC"], os.path.join(room, "s2calc"))


def output(command, room):
    """What a command prints in that folder, errors too."""
    run = subprocess.run(["bash", "-c", command], cwd=room, stdin=subprocess.DEVNULL, stdout=subprocess.PIPE,
                         stderr=subprocess.STDOUT, text=True, timeout=600)
    return run.stdout


class Page(unittest.TestCase):
    """A page whose commands have been run; those who inherit name it, and ask what the commands have made."""
    name = None

    @classmethod
    def setUpClass(cls):
        with open(os.path.join(TOP, "docs", cls.name), encoding="utf-8") as it:
            cls.text = it.read()
        cls.room = tempfile.mkdtemp()
        cls.addClassCleanup(shutil.rmtree, cls.room)
        os.chmod(cls.room, 0o755)  # for the server, which reads files there
        furnish(cls.room)
        cls.output("psql -qc 'DROP DATABASE IF EXISTS regions' -c 'CREATE DATABASE regions'")
        cls.output("psql -qd regions -c 'CREATE EXTENSION s2union_geo CASCADE'")
        cls.ran = [(command, wanted, cls.output(command)) for command, wanted in commands(cls.text)]

    @classmethod
    def output(cls, command):
        return output(command, cls.room)

    def file(self, name):
        return os.path.join(self.room, "world", name)

    def page_holds(self):
        self.assertEqual(len(self.ran), len(re.findall(r"^\$ ", self.text, re.M)))
        for command, wanted, said in self.ran:
            self.assertEqual(said, wanted)
