"""Profiles, maps and words, and how they are changed."""
from __future__ import annotations
import random

NUMBERS = ["0", "1", "00", "-1", "18446744073709551615", "18446744073709551616", "99999999999999999999",
           "ffffffffffffffff", "10000000000000000", "0x10", "zz", ""]
WORDS = ["rewrite", "map", "run", "record", "repair", "verify", "lookup", "sample", "frames", "--symbols", "--steps",
         "--steps=3", "--steps=x", "--steps=", "--steps=18446744073709551616", "--", "-", "-x", "in", "profile", "out",
         "map", "nothing", "10078", "0x1", "3", "0", "1001", "", "\u00e9", "x" * 65536]
COMMANDS = ["rewrite in profile out map", "map in profile", "run in", "run --symbols in word", "run --steps 99 -- in -x",
            "record in out", "record --steps=9 in out word", "repair in profile out", "verify in in profile",
            "lookup in 10078", "frames in 10078", "sample 3 out map"]


def changed_text(rng: random.Random, text: bytes) -> bytes:
    """Lines and words of a text are changed, moved, doubled, and so on."""
    lines = text.split(b"\n")
    for _ in range(rng.choice([0, 1, 1, 2, 5])):
        at = rng.randrange(len(lines))
        way = rng.randrange(8)
        words = lines[at].split(b" ")
        if way == 0:
            words[rng.randrange(len(words))] = rng.choice(NUMBERS).encode()
        elif way == 1:
            words[rng.randrange(len(words))] = words[rng.randrange(len(words))]
        elif way == 2:
            del words[rng.randrange(len(words))]
        elif way == 3:
            words.insert(rng.randint(0, len(words)), rng.choice([b"", b"1", b"\0", b"\xff", b"\t"]))
        if way < 4:
            lines[at] = b" ".join(words)
        elif way == 4:
            lines[at:at] = lines[at:at + 1] * rng.choice([1, 2, 40])
        elif way == 5:
            del lines[at]
            lines = lines or [b""]
        elif way == 6:
            line = bytearray(lines[at])
            place = rng.randint(0, len(line))
            line[place:place + rng.randint(0, 1)] = rng.randbytes(rng.randint(0, 2)).replace(b"\n", b"")
            lines[at] = bytes(line)
        else:
            other = rng.randrange(len(lines))
            lines[at], lines[other] = lines[other], lines[at]
    return b"\n".join(lines)


def profile(rng: random.Random, text: str, functions: list) -> bytes:
    """The profile of a program with lines for other places of its functions."""
    lines = [text]
    for _ in range(rng.choice([0, 0, 2, 10])):
        ends = []
        for f in rng.choices(functions, k=2):
            name = rng.choice([f.name, f"@{f.start:x}", f"@{f.start + 4:x}", "nobody"])
            ends.append(f"1 {name} {rng.randrange(0, f.size + 4, 2):x}")
        lines.append(f"{ends[0]} {ends[1]} 0 {rng.choice([0, 1, 7, 1000, (1 << 64) - 1])}\n")
    return changed_text(rng, "".join(lines).encode())


def words(rng: random.Random) -> list[str]:
    """A command of which some words are others, mostly."""
    chosen = rng.choice(COMMANDS).split(" ") if rng.random() < 0.9 else rng.choices(WORDS, k=rng.randint(0, 6))
    for _ in range(rng.choice([0, 1, 1, 2, 3])):
        at = rng.randint(0, len(chosen))
        chosen[at:at + rng.randint(0, 1)] = rng.choices(WORDS, k=rng.choice([0, 1, 1, 1, 2, 70]))
    return chosen
