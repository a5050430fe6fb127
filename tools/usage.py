"""What a command of Python does first. usage.sh is the same for a command of bash."""
import sys


def print_if_asked(text):
    """With --help or -h as the first word, prints the text at the command's head, which is its usage, and ends."""
    if sys.argv[1:2] in (["--help"], ["-h"]):
        print(text.strip())
        sys.exit()
