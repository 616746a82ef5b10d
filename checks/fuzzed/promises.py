"""What is promised of each command, whatever its files are: its statuses, what it prints and writes, and its time."""
from __future__ import annotations
import re
from dataclasses import dataclass

OK, USAGE, REFUSED, READ_FAULT, WRITE_FAULT, NO_MEMORY, TRAPPED, OUT_OF_STEPS, STUCK, UNFAITHFUL = (
    0, 220, 221, 222, 223, 224, 225, 226, 227, 228)
SECONDS, SECONDS_A_BYTE = 0.25, 4e-6
MIB = 1 << 20
BYTES_A_BYTE, MOST_BYTES = 64, 1 << 30

NAMES = {
    1: "NotElf", 2: "Truncated", 3: "Flags", 4: "NotStatic", 5: "ExecSegments", 6: "WritableCode", 7: "HighAddress",
    8: "CompressedSection", 9: "RelocType", 10: "RelocMismatch", 11: "LoMismatch", 12: "NarrowDiff", 13: "IfuncOrPlt",
    14: "AlreadyMoved", 15: "BadEntry", 16: "BadInstruction|BareAuipc", 17: "BadTarget", 18: "UnitTooLong",
    19: "KeptBranch", 20: "RegisteredFrames", 21: "FrameFault", 22: "DwarfVersion", 23: "DwarfForm", 24: "HighPcForm",
    25: "DwarfFault", 26: "LineFault", 27: "NoRoom", 28: "TooLarge"}
IMAGE, CODE, TABLES = {*range(1, 9), 28}, {*range(1, 18), 28}, {*range(1, 9), *range(21, 27), 28}

FORMS = {
    "rewrite": rb"moved \d+ functions, \d+ instructions, \d+ bytes; \d+ hot blocks; \d+ profile lines ignored\n",
    "map": rb"([0-9a-f]+ \d+ [0-9a-f]+\n)*",
    "lookup": rb"none\n|(line .*\n)*(covers [0-9a-f]+\n)*(places [0-9a-f]+ (2|40) (-|([0-9a-f]{2})+)\n)*"
              rb"(unwind cfa .*\n)?",
    "frames": rb"none\n|(.*\n)+",
    "sample": rb"sample \d+\n",
    "repair": rb"((price [0-9a-f]+ -?\d+|link ([0-9a-f]+|-) ([0-9a-f]+|-) \d+ \d+)\n)*\d+ links, total change \d+\n",
    "verify": rb"faithful\n"}
FORMS = {command: re.compile(form, re.DOTALL if command == "lookup" else 0) for command, form in FORMS.items()}
REFUSAL = re.compile(rb"refused (\d+) (\w+) at [0-9a-f]+(: need \d+ room \d+)?( in OUT)?\n")
UNFAITHFUL_LINE = re.compile(rb"unfaithful (MapText|MapSpan|SpanBytes|Instruction|Next|Entry|Byte|Cell|Table) "
                             rb"at [0-9a-f]+\n")
ENDED = re.compile(rb"\[ended (\d+) after \d+ steps\]\n\Z")
CLOSINGS = {
    TRAPPED: re.compile(rb"\[trapped (Fetch|Illegal|Load|Store|Break) at [0-9a-f]+ after \d+ steps\]\n\Z"),
    OUT_OF_STEPS: re.compile(rb"\[out of steps after \d+ steps\]\n\Z"),
    STUCK: re.compile(rb"\[stuck (NotCode|EndOfFunction|FellOff|Operate|Compare|Mixed|Hidden|Access|CallArg|Break) "
                      rb"at [0-9a-f]+ after \d+ steps\]\n\Z")}
FAULTS = {"rewrite": {*NAMES}, "map": {*NAMES}, "run": IMAGE, "symbols": CODE, "record": CODE,
          "repair": CODE, "verify": CODE, "lookup": TABLES, "frames": TABLES - {21}, "sample": set()}
WRITES = {"rewrite": ["out", "map"], "record": ["out"], "repair": ["out"], "sample": ["out", "map"]}


@dataclass
class Answer:
    """How a command ended: its status (negative for a signal), what it printed and said (on standard error), the files
    that it wrote, and the processor's seconds."""
    status: int
    printed: bytes
    said: bytes
    wrote: list[str]
    seconds: float

    def kind(self) -> str:
        """What it answered, without places and numbers."""
        if self.status < 0:
            return f"signal {-self.status}"
        if ENDED.search(self.printed):
            return "ended"
        last = self.printed.rsplit(b"\n", 2)[-2:-1]
        words = last[0].split(b" ") if last else []
        if self.status == REFUSED:
            return b" ".join(words[1:3]).decode(errors="replace")
        if self.status in (STUCK, TRAPPED, UNFAITHFUL):
            return b" ".join(words[:2]).decode(errors="replace")
        return {OK: "done", USAGE: "usage", NO_MEMORY: "out of memory", OUT_OF_STEPS: "out of steps"}.get(
            self.status, f"status {self.status}")


def refusal_complaints(command: str, printed: bytes) -> list[str]:
    line = REFUSAL.fullmatch(printed)
    if not line:
        return [f"a refusal prints {printed[:80]!r}"]
    number = int(line[1])
    if line[2].decode() not in NAMES.get(number, "").split("|") or number not in FAULTS[command]:
        return [f"refused {number} {line[2].decode()}"]
    if (line[3] is not None) != (number == 27) or line[4] and (command != "verify" or number not in IMAGE):
        return [f"a refusal prints {printed[:80]!r}"]
    return []


def run_complaints(command: str, answer: Answer) -> list[str]:
    """Of a run that came to something: its closing line, and the status by it."""
    ended = ENDED.search(answer.printed)
    if ended and int(ended[1]) == answer.status:
        return []
    if answer.status in CLOSINGS and CLOSINGS[answer.status].search(answer.printed):
        if (answer.status == STUCK) == (command == "symbols") or answer.status == OUT_OF_STEPS:
            return []
    return [f"status {answer.status} after {answer.printed[-80:]!r}"]


def text_complaints(command: str, answer: Answer) -> list[str]:
    """Whether the status is one of the command's, and what is printed goes with it."""
    if answer.status == NO_MEMORY and (not answer.printed or command in ("run", "symbols", "record")):
        return []
    if answer.status == REFUSED and not ENDED.search(answer.printed):
        return refusal_complaints(command, answer.printed)
    if command in ("run", "symbols", "record"):
        return run_complaints(command, answer)
    if answer.status == UNFAITHFUL and command == "verify" and UNFAITHFUL_LINE.fullmatch(answer.printed):
        return []
    if answer.status == OK and FORMS[command].fullmatch(answer.printed):
        return []
    return [f"status {answer.status} with {answer.printed[:80]!r}"]


def written_complaints(command: str, answer: Answer) -> list[str]:
    done = answer.status == OK
    if command == "record":
        done = answer.status in (TRAPPED, OUT_OF_STEPS) or bool(ENDED.search(answer.printed))
    wanted = WRITES.get(command, []) if done else []
    return [] if answer.wrote == wanted else [f"wrote {answer.wrote}"]


def complaints(command: str, answer: Answer, size: int) -> list[str]:
    """What a command didn't keep of its promises, over files of so many bytes."""
    if answer.status < 0:
        return [answer.kind()]
    found = [f"says {answer.said[:80]!r}"] if answer.said else []
    if answer.seconds > SECONDS + SECONDS_A_BYTE * size:
        found.append("takes long")
    return found + text_complaints(command, answer) + written_complaints(command, answer)
