"""The cases of the C programs of tests/programs, as cases.sh has them."""

import subprocess

from ddc_tests.program import TOP

PROGRAMS = TOP / "tests" / "programs"
# Prints each case of the table: how many words it has, and the words, each with a zero byte.
PRINTS_CASES = 'program_case() { printf "%s\\0" "$#" "$@"; }; source "$1"'


def program_cases() -> list[list[bytes]]:
    """The name, the program and the words of each case of tests/programs/cases.sh."""
    words = ["bash", "-c", PRINTS_CASES, "bash", str(PROGRAMS / "cases.sh")]
    found = subprocess.run(words, capture_output=True, check=True).stdout.split(b"\0")[:-1]
    cases = []
    while found:
        count = int(found[0])
        cases.append(found[1 : 1 + count])
        found = found[1 + count :]
    return cases
