"""How many rows or tests passed and failed, by what they wrote."""
import re
import sys

from kit import TOP

sys.path.insert(0, str(TOP / "checks" / "compare"))

from rows import DATA, file_names, rows_of  # noqa: E402


def counted_tests(output):
    """By the lines that end the tests; one failed if there is none."""
    found = re.findall(rb"^test result: .*?(\d+) passed; (\d+) failed", output, re.MULTILINE)
    return (sum(int(passed) for passed, _ in found), sum(int(failed) for _, failed in found)) if found else (0, 1)


def counted_rows(output):
    """By the last line of the program `vectors`. A row of the files that is not counted there is wrong."""
    there = sum(len(rows_of(DATA / name)) for name in file_names())
    found = re.search(rb"^(\d+) rows, (\d+) of them wrong$", output, re.MULTILINE)
    right = int(found[1]) - int(found[2]) if found else 0
    return right, there - right
