"""The parts of recipes that tests write: each function gives the lines of a table."""

from collections.abc import Sequence


def given(name: str, path: str, implements: str = "") -> str:
    """An input, and the source that it is said to implement."""
    line = f'implements = "{implements}"\n' if implements else ""
    return f'[[input]]\nname = "{name}"\npath = "{path}"\n{line}'


def source(name: str, content: str, language: str = "hex0") -> str:
    """A source of one content."""
    return f'[[source]]\nname = "{name}"\nlang = "{language}"\nfiles = ["{content}"]\n'


def stage(
    name: str, program: str, words: Sequence[str], files: Sequence[tuple[str, str]],
    more: str = "", output: str = "out", steps: int = 1_000_000,
) -> str:
    """A stage: its words, its files as paths and the contents that are laid there, and a line."""
    args = ", ".join(f'"{it}"' for it in words)
    laid = ", ".join(f'{{ path = "{path}", from = "{content}" }}' for path, content in files)
    return (f'[[stage]]\nname = "{name}"\nprogram = "{program}"\nargs = [{args}]\n'
            f'files = [{laid}]\noutput = "{output}"\nsteps = {steps}\n{more}')


def compare(name: str, binary: str = "binary") -> str:
    """The stage and the binary that are compared."""
    return f'[compare]\nstage = "{name}"\nbinary = "{binary}"\n'


def recipe(*parts: str) -> str:
    """A whole recipe of these parts."""
    return "".join(["format = 1\n", *parts])


def with_routes(text: str) -> str:
    """A recipe that compares the stage `made`, in format 2, which names it as a route."""
    return text.replace("format = 1\n", "format = 2\n", 1).replace(
        '\nstage = "made"\n', '\nstages = ["made"]\n')
