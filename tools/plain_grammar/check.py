"""Asks `perses normal` about the result, and finds the line of its first fault."""
import re
import subprocess
import tempfile
from pathlib import Path

BYTE = re.compile(r" at byte (\d+)$")
RULE = re.compile(
    r"^(?:two rules|no rule|misplaced EOF in|fragment loop in|non-greedy rule|empty token|no base in|empty loop in|left recursion in|misplaced rule) (\w+)"
)


def fault_of(program, texts):
    """The text of the fault that the program finds in a grammar, or in a parser and its lexer, or None."""
    with tempfile.TemporaryDirectory() as folder:
        words = [program, "normal"]
        for option, text in zip(("--grammar", "--lexer"), texts):
            path = Path(folder) / f"{option.lstrip('-')}.g4"
            path.write_text(text, encoding="utf-8")
            words += [option, str(path)]
        try:
            done = subprocess.run(words, capture_output=True, text=True, encoding="utf-8")
        except OSError as fault:
            return f"{program}: {fault.strerror}"
    if done.returncode == 0:
        return None
    said = done.stdout.strip().removeprefix("perses: ").removeprefix("grammar: ")
    return said or f"{program} ended with status {done.returncode}"


def place_of_fault(fault, grammars, places):
    """Where the fault is in the sources: by its byte in the grammar that it speaks of, or by the rule that it names."""
    spoken_of = 1 if fault.startswith("in lexer: ") else 0
    if found := BYTE.search(fault):
        before = [place for offset, place in places[spoken_of] if offset <= int(found[1])]
        return before[-1] if before else grammars[spoken_of].name.place
    if found := RULE.search(fault):
        for rule in (rule for grammar in grammars for rule in grammar.rules):
            if rule.name.text == found[1]:
                return rule.place
    return grammars[spoken_of].name.place
