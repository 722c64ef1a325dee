"""The table of all refusals: what ddc prints, its statuses, and what explains it."""

import re
from collections.abc import Iterator
from dataclasses import dataclass

from ddc_tools import file_reasons, recipe_reasons, run_reasons, usage_reasons, verdict_reasons
from ddc_tools.asked import Asked
from ddc_tools.program import ended
from ddc_tools.run_reasons import Reason

CAUSE = r"(start elf \d+|start args|start box|trap [\w -]+?|call \d+|status \d+|no-output|" \
        r"no-program|crowded|spent)"


@dataclass
class Refusal:
    """A line that ddc prints, as a pattern, and what explains it."""

    line: str
    reason: Reason


def usage(asked: Asked, found: re.Match[str]) -> Iterator[str]:
    """Words that are no command line."""
    yield from usage_reasons.usage_reasons(asked)


TABLE = [
    Refusal(r"usage", usage),
    Refusal(r"refuted segment (.+)", verdict_reasons.segment_refuted),
    Refusal(r"refuted (first|last) (.+)", verdict_reasons.end_refuted),
    Refusal(r"refuted (\w+) (\d+)", verdict_reasons.refuted),
    Refusal(r"no place", verdict_reasons.no_place),
    Refusal(r"audit (\d+)", verdict_reasons.of_chain),
    Refusal(r"differs (\d+) (\d+) (\d+)", verdict_reasons.value_differs),
    Refusal(r"differs (\w+) (\w+) (\d+) (\d+) (\d+).*", verdict_reasons.differs),
    Refusal(recipe_reasons.LINE.pattern, recipe_reasons.recipe_reasons),
    Refusal(r"report line (\d+)", file_reasons.report_line),
    Refusal(rf"run failed (\w+) {CAUSE} step (\d+)", run_reasons.stage_failed),
    Refusal(rf"failed {CAUSE} step (\d+)", run_reasons.ran),
    Refusal(r"(exited [1-9]\d*) step (\d+)", run_reasons.ran),
    Refusal(rf"(?:not )?left (\w+) (.+?)(?: \d+)? {CAUSE} step (\d+)", run_reasons.left),
    Refusal(r"check failed (\w+) (.+)", run_reasons.check_failed),
    Refusal(r"refused (\d+) (\d+)", run_reasons.asm_refused),
    Refusal(r"paused (\w+) (\d+)", verdict_reasons.paused),
    Refusal(r"save refused (\d+)", file_reasons.save_refused),
    Refusal(r"file refused (.+) absent", file_reasons.absent),
    Refusal(r"file refused (.+) too long", file_reasons.too_long),
    Refusal(r"shelf fault (.+)", file_reasons.shelf_fault),
    Refusal(r"too many segments", verdict_reasons.too_many_segments),
    Refusal(r"script refused (\d+) (\d+)", file_reasons.script_refused),
    Refusal(r"list refused (\d+)", file_reasons.list_refused),
]
NO_LINE = {12: "standard output failed, or in a session standard input: a full disk, or a reader "
               "that went away. What was to be saved is saved",
           13: "out of memory: nothing was decided. Retry with more memory",
           125: "the program could not be built: crates/ddc/out/build.log has what the prover "
                "said",
           126: "the program may not be run", 127: "the program is not there"}


def reasons(asked: Asked) -> Iterator[str]:
    """Why this answer was given, line by line; nothing for a yes."""
    answer = asked.answer
    if answer.status == 0:
        return
    if answer.status in NO_LINE or answer.status < 0:
        yield NO_LINE.get(answer.status) or f"no answer: ddc was {ended(answer.status)}"
        return
    known = False
    for line in answer.text.splitlines():
        for refusal in TABLE:
            found = re.fullmatch(refusal.line, line)
            if found:
                known = True
                yield from refusal.reason(asked, found)
                break
    if not known:
        yield f"status {answer.status}: docs/reference/command-line.md says what it stands for"
