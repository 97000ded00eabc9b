"""What a file of definitions says of itself at its head."""
import re

SENTENCE = re.compile(r".+?[.!?](?=\s+[A-Z`]|\Z)")


def head_comment(text):
    """The comment that a file begins with, up to its first empty line, as one line. Empty where there is none."""
    lines = []
    for line in text.splitlines():
        if not line.startswith("-- "):
            break
        lines.append(line[3:].strip())
    return " ".join(lines)


def first_sentence(comment):
    """The first sentence of a comment. Without an end of a sentence it is all of it."""
    found = SENTENCE.match(comment)
    return found[0] if found else comment.rstrip(":") + "." * bool(comment)
