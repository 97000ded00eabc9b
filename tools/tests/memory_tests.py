"""Out of memory has a cause: each line of the program that makes a value of it, or brings a count over a limit, is listed here."""
import re
import unittest
from pathlib import Path

TOP = Path(__file__).resolve().parent.parent.parent

# The lines that make one, by file. In two of them a library says that it got no memory, and gives no value of it.
MADE = {
    "faults/src/lib.rt": [
        "if error.kind() == ErrorKind::OutOfMemory && error.raw_os_error().is_none() {",
        "return Err(Memory::over(self, count));",
    ],
    "command_words/src/options.rt": ["ErrorKind::OutOfMemory => Err(Memory::from(AllocError)),"],
    "ordered_commit/src/claiming.rt": ["return Err(Memory::from(AllocError));"],
    "perses_main/src/args.rt": ["Err(error) if error.kind() == ErrorKind::OutOfMemory => Err(error),"],
    "cert_check_texts/src/prints.rt": ["Limit::Tries.within(count_tries(reached.len(), firsts.len(), equal.len()))?;"],
    "chart_parser/src/nodes.rt": ["Limit::Numbers.within(count)?;", "Limit::Numbers.within(nodes.len() + 1)?;"],
    "chart_parser_ends/src/entries.rt": ["Limit::Numbers.within(self.ranges.len() + 1)?;", "Limit::Numbers.within(from + ends.len())?;"],
    "chart_parser_ends/src/repetition.rt": ["Limit::Numbers.within(position as usize + 1)?;"],
    "compat_table/src/row.rt": ["Limit::Symbols.within(count)?;"],
    "grammar_pair/src/joining.rt": ["Limit::Numbers.within(rules.len())?;"],
    "lexer/src/empty.rt": ["Limit::Numbers.within(nfa.len())?;"],
    "lexer/src/live.rt": ["Limit::Numbers.within(nfa.len())?;"],
    "lexer_nfa/src/compile.rt": ["Limit::Ranges.within(ranges)?;", "Limit::States.within(number + 1)?;"],
}

# Crates that aren't in the program.
BESIDE = re.compile(r"(test|cases|plain|bench)_")

# What makes one, and the two types of std where they are only named.
MAKES = re.compile(r"\b(AllocError|AllocFailed|OutOfMemory)\b|(\.|::)(over|within)\b")
TYPE = re.compile(r"(?:<|, |: )(?:AllocError(?=[>,)])|AllocFailed<T>)")

# What is no code: comments, contracts, and imports that give no other name.
NO_CODE = re.compile(r"\s*(//|ghost |requires |ensures |(pub )?use (?!.* as ))")


def makers(text):
    """The lines of code that could make a value of out of memory."""
    lines = [line.split(" //")[0].strip() for line in text.splitlines() if not NO_CODE.match(line)]
    return [line for line in lines if MAKES.search(TYPE.sub("", line))]


class MemoryTests(unittest.TestCase):
    def test_each_place_is_listed(self):
        found = {}
        for path in sorted(TOP.glob("crates/*/src/**/*.rt")):
            name = path.relative_to(TOP / "crates").as_posix()
            lines = [] if BESIDE.match(name) else makers(path.read_text())
            if lines:
                found[name] = lines
        self.assertEqual(found, MADE)

    def test_what_only_names_the_types_is_none(self):
        names = [
            "fn f(x: AllocError) -> Result<(), AllocError> {",
            "impl<T: Drop> From<AllocFailed<T>> for F {",
            "use std::alloc::{AllocError, Global};",
            "// over, within, AllocError",
            "    ensures within { OnOk result (count ≤ bound_of self) }",
        ]
        self.assertEqual(makers("\n".join(names)), [])

    def test_what_makes_one_is_found(self):
        made = [
            "Err(AllocError)",
            "let error = AllocError;",
            "let error = AllocFailed { value };",
            "use std::alloc::AllocError as Refused;",
            "use std::alloc::{AllocError as Refused};",
            "Err(Memory::over(Limit::States, usize::MAX))",
            "Err(faults::Memory::over(faults::Limit::Numbers, usize::MAX))",
            "return Err(Memory::over(",
            "Limit::Numbers.within(many)?;",
            "let no = Limit::Numbers.within(n * n);",
            "let make = Memory::over;",
            "Limit::within(Limit::Numbers, many)?;",
            "io::Error::from(ErrorKind::OutOfMemory)",
            "io::Error::new(io::ErrorKind::OutOfMemory, text)",
        ]
        for line in made:
            self.assertEqual(makers(line), [line])
