"""What each command may answer, with each status: the forms of docs/reference/command-line.md."""
import re

NAME, NUMBER, WORD, ADDRESS, DIGEST = (
    "[a-z0-9_]{1,32}", "(?:0|[1-9][0-9]*)", "[0-9a-f]{8}", "[0-9a-f]{16}", "[0-9a-f]{64}")
TRAP = (f"trap (?:illegal {WORD}|(?:fetch-unmapped|fetch-misaligned|load-unmapped|store-unmapped) "
        f"{ADDRESS}|break)")
START = f"start (?:elf (?:[1-9]|1[0-2])|args|box)"
TABLE = "(?:top|input|source|stage|compare)"
COMPARED = f"(?:equal {NAME} {NAME} {NUMBER}\n)+"
COMPARED_OTHERWISE = (
    f"(?:(?:equal {NAME} {NAME} {NUMBER}|differs {NAME} {NAME} {NUMBER} {NUMBER} {NUMBER})\n)*"
    f"differs {NAME} {NAME} {NUMBER} {NUMBER} {NUMBER}\n"
    f"(?:(?:equal {NAME} {NAME} {NUMBER}|differs {NAME} {NAME} {NUMBER} {NUMBER} {NUMBER})\n)*")
ASSUMED = (f"(?:route {NAME}\n|assumes implements {NAME} {NAME}\n"
           f"|assumes compiles {NAME} {NAME} {NAME}\n)*")
LEFT = (f"stream 1 {NUMBER} {DIGEST}\nstream 2 {NUMBER} {DIGEST}\n"
        f"(?:left (?:[0-9a-f]{{2}})+ {NUMBER} {DIGEST}\n)*")
GOING = (f"at {NUMBER} {ADDRESS} [^\n]+"
         f"|end (?:exited {NUMBER}|{TRAP}|call {NUMBER}|spent) step {NUMBER}")
STOPPED = ("(?:no-program step 0|start elf (?:[1-9]|1[0-2]) step 0"
           f"|(?:{TRAP}|call {NUMBER}|status [1-9][0-9]*|spent) step [1-9][0-9]*)")
REPLY = (f"{GOING}|no such step|break {ADDRESS}|{ADDRESS}(?: {ADDRESS}){{31}}"
         "|(?:[0-9a-f]{2}){1,64}|unmapped|unknown")

# What may be printed with each status, whatever the command.
COMMON = {
    2: "usage\n",
    4: f"recipe refused (?:1|3 {TABLE} {NUMBER}|(?:2|[4-9]) {TABLE} {NUMBER} [a-z]+)\n",
    5: f"report line [1-9][0-9]*\n",
    6: f"run failed {NAME} (?:{START} step 0|"
       f"(?:{TRAP}|call {NUMBER}|status {NUMBER}|no-output|crowded|spent) step [1-9][0-9]*)\n",
    7: f"check failed {NAME} (?:(?:hex|m1|items) {NUMBER} {NUMBER}|differs {NUMBER})\n",
    8: f"paused {NAME} {NUMBER}\n",
    10: "file refused [^\n]+ (?:absent|too long)\n",
    11: "shelf fault [^\n]+\n",
    15: f"script refused [1-5] {NUMBER}\n",
    16: "list refused [1-9][0-9]*\n",
}
RUN_ENDED = {
    6: f"exited [1-9][0-9]* step [1-9][0-9]*\n{LEFT}"
       f"|failed (?:{START} step 0|(?:{TRAP}|call {NUMBER}|spent) step [1-9][0-9]*)\n"
}
# The statuses of each command, and what is printed where it is its own.
COMMANDS = {
    "hex0": ({0: f"equal {NUMBER}\n", 3: f"differs {NUMBER} {NUMBER} {NUMBER}\n"}, ()),
    "asm": ({0: f"made {NUMBER}\n", 7: f"refused {NUMBER} {NUMBER}\n"}, ()),
    "list": ({0: f"(?:{WORD} {WORD} [^\n]+\n)*(?:{WORD} rest [0-9a-f]{{2,6}}\n)?"}, ()),
    "run": ({0: f"exited 0 step [1-9][0-9]*\n{LEFT}", **RUN_ENDED}, ()),
    "show": ({0: "ddc-report (?s:.*)\nend\n"}, (5,)),
    "audit": ({0: COMPARED, 3: COMPARED_OTHERWISE}, (2, 4, 6, 7, 10, 11)),
    "part": ({0: COMPARED, 3: COMPARED_OTHERWISE}, (2, 4, 6, 7, 8, 10, 11)),
    "resume": (
        {0: COMPARED, 3: COMPARED_OTHERWISE, 9: "save refused [1-3]\n"}, (2, 4, 6, 7, 8, 10, 11)
    ),
    "delta-start": (
        {0: COMPARED, 3: COMPARED_OTHERWISE, 9: "save refused [1-3]\n"}, (2, 4, 6, 7, 8, 10, 11)
    ),
    "delta-resume": (
        {0: COMPARED, 3: COMPARED_OTHERWISE, 9: "save refused [1-35-7]\n"}, (2, 4, 6, 7, 8, 10, 11)
    ),
    "verify": ({0: f"yes\n{COMPARED}{ASSUMED}", 3: f"{COMPARED_OTHERWISE}{ASSUMED}",
                1: f"refuted (?:header|input|run|files|assembled|compare) {NUMBER}\n"}, (2, 4, 5,
                10, 11)),
    "chain": ({
        0: f"chain {NUMBER} yes\n(?:assumes {NUMBER} implements {NAME} {NAME}\n"
           f"|assumes {NUMBER} compiles {NAME} {NAME} {NAME}\n)*",
        1: f"audit {NUMBER}\n"
           f"refuted (?:header|input|run|files|assembled|compare) {NUMBER}\n",
        3: f"audit {NUMBER}\n{COMPARED_OTHERWISE}",
        4: f"audit {NUMBER}\n{COMMON[4]}",
        5: f"audit {NUMBER}\n{COMMON[5]}"
    }, (2, 10, 11, 16)),
    "kaem": (
        {0: f"done {NUMBER} steps {NUMBER}\n", 6: f"run failed [1-9][0-9]* {STOPPED}\n"},
        (2, 10, 11, 15, 16)
    ),
    "kaem-verify": (
        {0: f"yes {NUMBER}\n", 1: f"refuted (?:header|file|run|streams|left) {NUMBER}\n"},
        (2, 5, 10, 11, 15, 16)
    ),
    "kaem-left": ({
        0: f"left {NUMBER} [^\n]+ {NUMBER} status {NUMBER} step [1-9][0-9]*\n",
        10: f"{COMMON[10]}|not left {NUMBER} [^\n]+ status {NUMBER} step [1-9][0-9]*\n",
        6: f"run failed [1-9][0-9]* {STOPPED}\n|(?:not )?left {NUMBER} [^\n]+ "
           f"(?:{TRAP}|call {NUMBER}|spent) step [1-9][0-9]*\n"
    }, (2, 11, 15, 16)),
    "step": ({0: f"(?:(?:{REPLY})\n)*"}, (2, 4, 6, 7, 10, 11)),
    "left": ({
        0: f"left {NAME} [^\n]+ {NUMBER} status {NUMBER} step [1-9][0-9]*\n",
        10: f"{COMMON[10]}|not left {NAME} [^\n]+ status {NUMBER} step [1-9][0-9]*\n",
        6: f"{COMMON[6]}|(?:not )?left {NAME} [^\n]+ "
           f"(?:{TRAP}|call {NUMBER}|spent) step [1-9][0-9]*\n"
    }, (2, 4, 7, 11)),
    "cut": ({0: f"cut {NUMBER} step {NUMBER}\n", 14: "too many segments\n"}, (2, 4, 6, 7, 10, 11)),
    "segment": ({
        0: f"segment yes {NUMBER}\n",
        1: f"refuted segment (?:(?:from|to) [1-3]|later|far|(?:ends|differs) {NUMBER})\n"
    }, (2, 10, 11)),
    "ends": ({
        0: f"stage {NAME} {NUMBER}\n{LEFT}made {NUMBER} [0-9a-f]{{64}}\n",
        1: f"refuted (?:first (?:[1-3]|differs {NUMBER})|last [1-3])\n"
    }, (2, 4, 6, 7, 10, 11)),
    "demo": ({0: f"demo {NUMBER} steps {NUMBER} equal yes\n", 3: COMPARED_OTHERWISE}, (6, 7)),
}
TEXTS = {command: {
    status: re.compile(form) for status,
    form in {**{it: COMMON[it] for it in common}, **own}.items()
}
         for command, (own, common) in COMMANDS.items()}
# The word after the command that is saved, by the status.
SAVES = {"asm": {0: 4}, "audit": {0: 2, 3: 2}, "kaem": {0: 3}, "part": {
    0: 3, 3: 3, 8: 2
}, "resume": {0: 3, 3: 3, 8: 2},
         "delta-start": {0: 4, 3: 4, 8: 3}, "delta-resume": {0: 4, 3: 4, 8: 3}}
LONG_RUN = re.compile(rb"[0-9a-fA-Fx_]{9,}")
