"""How words that are made stand in lines."""
WIDTH = 120


def filled(head, words, between, tail, indent):
    """Words in as few lines as hold them."""
    lines, line = [], head
    for place, word in enumerate(words):
        word += between.rstrip() if place + 1 < len(words) else tail
        if len(line) + len(word) + 14 > WIDTH and line.strip():
            lines.append(line.rstrip())
            line = indent
        line += word + " "
    return [*lines, line.rstrip()]


def folded(text):
    """The lines of a text, of which a call that is too long for its line is broken at a comma."""
    for line in text.split("\n"):
        while len(line) > WIDTH:
            at = line.rfind(", ", 0, WIDTH) + 1
            yield line[:at]
            line = " " * (len(line) - len(line.lstrip()) + 4) + line[at:].lstrip()
        yield line
