"""What the checks of texts share: the files that git knows, and how what is wrong is counted."""
import shutil
import subprocess
from pathlib import Path


def tracked(top, *paths):
    """The files of a repository that git knows and that are there: those of these paths, or all if none is given. What
    tools/release made of them isn't among them."""
    listed = subprocess.run(["git", "ls-files", "-z", *paths], cwd=top, capture_output=True, text=True, check=True)
    names = [name for name in listed.stdout.split("\0")[:-1] if not name.startswith("dist/")]
    return [name for name in names if Path(top, name).is_file()]


def copy_tracked(top, room, *paths):
    """Copies these files to a folder."""
    for name in tracked(top, *paths):
        Path(room, name).parent.mkdir(parents=True, exist_ok=True)
        shutil.copy(Path(top, name), Path(room, name))


def has_wrong(asked, passed=0, failed=0):
    """Whether one of these checks finds something, or has nothing to look at: by what is wrong, how many it has looked
    at and what it finds. The line that it prints at the end counts these `passed` and `failed` too."""
    for what, (count, wrong) in asked.items():
        wrong = wrong if count else ["there is nothing to look at"]
        for it in wrong:
            print(f"{what}: {it}")
        passed, failed = passed + max(count - len(wrong), 0), failed + len(wrong)
    print(f"{passed} passed, {failed} failed")
    return failed > 0
