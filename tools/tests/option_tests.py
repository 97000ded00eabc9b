"""The options of each command, as `command_words` has them, beside the documents that name them."""
import re
import unittest
from pathlib import Path

TOP = Path(__file__).resolve().parents[2]
COMMANDS = ["reduce", "normal", "selftest", "check"]


def read(path):
    return (TOP / path).read_text()


def options_of_table(command):
    """The options of a command by the table that its command lines are read by."""
    table = re.search(rf"\n{command}_table =(.*?)(?=\n\n|\Z)", read("crates/command_words/specs/Tables.antt"), re.S)
    return re.findall(r'(?:required|optional|repeated \d+) \(codes "([\w-]+)"\)', table.group(1))


def options_of_manual(command):
    section = re.search(rf"\n\.SS {command}\n(.*?)(?=\n\.S[SH] )", read("docs/perses.1"), re.S)
    return re.findall(r'^\.B[IR]? "?--([\w-]+)', section.group(1).replace("\\-", "-"), re.M)


def options_of_formats(command):
    """The rows of a command are that with its name, and those without a name that follow it."""
    rows = re.search(rf"\n\| `{command}` (\|.*?\n)(?=\| `|\n)", read("docs/FORMATS.md"), re.S)
    return re.findall(r"^(?:\| )?\| `--([\w-]+)", rows.group(1), re.M)


def options_of_bash(command):
    text = read("docs/completions/perses.bash")
    line = re.search(rf"^    {command}\)\s+options=(['\"])(.*?)\1", text, re.M).group(2)
    by_grammar = re.search(r"by_grammar='(.*?)'", text).group(1)
    return re.findall(r"--([\w-]+)", line.replace("$by_grammar", by_grammar))


def options_of_zsh(command):
    text = read("docs/completions/_perses")
    part = re.search(rf"\n  {command}\)\n(.*?)\n    ;;", text, re.S).group(1)
    by_grammar = re.search(r"by_grammar=\((.*?)\n  \)", text, re.S).group(1)
    return re.findall(r"'\*?--([\w-]+)=?\[", part.replace("$by_grammar", by_grammar))


def options_of_usage(command):
    """Those of the usage: a line each for `reduce`; in its own line for another command, and in what it says."""
    text = read("crates/notice_words/src/usage.rt")
    if command == "reduce":
        return re.findall(r"^  --([\w-]+)", text, re.M)
    own = re.search(rf"perses {command} (.*)", text).group(1)
    says = re.search(rf"^{command} says (.*?)\. ", text, re.M | re.S)
    return re.findall(r"--([\w-]+)", own + (says.group(1) if says else ""))


def options_of_faults(command):
    """The names by which the fault of a command line is named."""
    names = re.search(rf"\nstatic {command.upper()}: .*? = \[(.*?)\];", read("crates/notice_words/src/rows.rt"), re.S)
    return re.findall(r'"([\w-]+)"', names.group(1))


class Options(unittest.TestCase):
    def are_those_of_the_table(self, named):
        for command in COMMANDS:
            with self.subTest(command=command):
                self.assertEqual(sorted(named(command)), sorted(options_of_table(command)))

    def test_table_is_found(self):
        self.assertEqual([len(options_of_table(command)) for command in COMMANDS], [17, 3, 3, 9])

    def test_usage_names_each_option(self):
        self.are_those_of_the_table(options_of_usage)

    def test_faults_name_each_option(self):
        self.are_those_of_the_table(options_of_faults)

    def test_manual_names_each_option(self):
        self.are_those_of_the_table(options_of_manual)

    def test_formats_name_each_option(self):
        self.are_those_of_the_table(options_of_formats)

    def test_bash_completes_each_option(self):
        self.are_those_of_the_table(options_of_bash)

    def test_zsh_completes_each_option(self):
        self.are_those_of_the_table(options_of_zsh)


if __name__ == "__main__":
    unittest.main()
