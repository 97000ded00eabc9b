"""The pure parts of bench/allocations: where the number is written, which numbers are tried, and what is wrong with a run."""
import random
import sys
import unittest

from support import TOOL, named_tests

TOP = TOOL.parent.parent
sys.path.insert(0, str(TOP / "bench"))

from fault_runs import OLD, Came, Reference  # noqa: E402
from reductions import Reduction  # noqa: E402
from refusals import COMPARE, COMPILED, REFUSE, UNLESS, Left, Limits, Row, instead, largest, number_bytes, places_in, some_of, wrong_of  # noqa: E402

SITE = COMPARE + number_bytes(COMPILED) + UNLESS + REFUSE


class Numbers(unittest.TestCase):
    """The number of the refused allocation in the code of a program."""

    def test_it_is_found_where_it_is_compared_with(self):
        code = b"\n" + SITE + b"--" + number_bytes(COMPILED) + b"--" + SITE
        self.assertEqual(places_in(code), [3, len(code) - 8])

    def test_a_program_in_which_it_is_once_is_refused(self):
        with self.assertRaises(SystemExit):
            places_in(SITE)

    def test_what_is_written_has_the_length_of_what_was_there(self):
        for kills in (False, True):
            self.assertEqual(len(instead(7, kills)), len(SITE) - len(COMPARE))
        self.assertEqual(COMPARE + instead(COMPILED, False), SITE)

    def test_the_largest_is_found(self):
        for count in (0, 1, 2, 3, 4, 7, 8, 1000, 1023, 1025):
            self.assertEqual(largest(lambda number, count=count: number <= count), count)

    def test_few_are_all_tried(self):
        limits = Limits(all=20, first=5, last=2, between=4)
        self.assertEqual(some_of(20, limits, random.Random(1)), list(range(1, 21)))

    def test_of_many_the_ends_are_tried_and_one_of_each_stretch(self):
        limits = Limits(all=20, first=5, last=2, between=4)
        for count in (21, 22, 100, 101):
            numbers = some_of(count, limits, random.Random(count))
            self.assertEqual(numbers, sorted(set(numbers)))
            self.assertEqual((numbers[:5], numbers[-2:]), ([1, 2, 3, 4, 5], [count - 1, count]))
            between, step = numbers[5:-2], -(-(count - 7) // 4)
            self.assertEqual([(number - 6) // step for number in between], list(range(len(between))))


ROW = Row("three lines", Reduction("lines", b"a\nb\n", "", lambda text: b"b" in text), 1)
HEAD = b"perses-journal 1\n"
START = HEAD + b"R y 4\na\nb\n\nC 1\n"
WHOLE = START + b"R n 0\n\nC 2\nR y 2\nb\n\nC 3\n"
REFERENCE = Reference(b"b\n", WHOLE)
REPORT = b"units: 2 -> 1\nbytes: 4 -> 2\nrounds: 2\nused: 3\nrecords: 3\n"
ANSWERS = [(b"a\nb\n", True), (b"", False), (b"b\n", True)]
LINE = b"perses: out of memory\n"


def left(status, said, journal, answers, output=None):
    """What a run leaves: None is no file."""
    files = [OLD if data is None else data for data in (output, journal)]
    return Left(Came(status, said, b"", *files, len(answers), answers, True), output is not None, journal is not None)


class Runs(unittest.TestCase):
    """What is wrong with a run of which an allocation was refused."""

    def wrong(self, is_wrong, run, row=ROW):
        self.assertEqual(wrong_of(run, row, REFERENCE) != [], is_wrong)


TORN = START + b"R n 0\n"
OTHER = START + b"R y 0\n\nC 2\n"

named_tests(Runs, Runs.wrong, [
    ("a whole run", False, left(0, REPORT, WHOLE, ANSWERS, b"b\n")),
    ("another result", True, left(0, REPORT, WHOLE, ANSWERS, b"a\n")),
    ("a journal that lacks its end", True, left(0, REPORT, START, ANSWERS, b"b\n")),
    ("no journal", False, left(1, LINE, None, [])),
    ("no line", False, left(1, b"", None, [])),
    ("another line", True, left(1, b"perses: cannot write\n", None, [])),
    ("an output at status 1", True, left(1, LINE, WHOLE, ANSWERS, b"b\n")),
    ("another status", True, left(11, b"perses: script fault at worker 1\n", START, ANSWERS[:1])),
    ("a signal", True, left(-6, b"", None, [])),
    ("a run that doesn't end", True, left(None, b"", None, [])),
    ("a head alone", False, left(1, LINE, HEAD, [])),
    ("half a head", True, left(1, LINE, HEAD[:-1], [])),
    ("the last answer is not in the journal", False, left(1, LINE, START, ANSWERS[:2])),
    ("two answers are not in the journal", True, left(1, LINE, START, ANSWERS)),
    ("answers and no journal", True, left(1, LINE, None, ANSWERS[:1])),
    ("a torn tail", True, left(1, LINE, TORN, ANSWERS[:2])),
    ("another verdict", True, left(1, LINE, OTHER, ANSWERS[:2])),
    ("another verdict by two workers", True, left(1, LINE, OTHER, ANSWERS[:2]), ROW._replace(jobs=2)),
])


if __name__ == "__main__":
    unittest.main()
