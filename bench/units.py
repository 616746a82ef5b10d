#!/usr/bin/env python3
"""Seconds and memory that the units of a file take: to list their entries, to weigh and to change them.

    python3 bench/units.py [--folder FOLDER] [--tools] [KIND..]

No command of the program does this alone, so the script puts a small program into FOLDER (a temporary one where it isn't
given), beside copies of the crates that it stands on, proves it by `rt`, which takes some minutes where they are new, and
runs it. It moves 714,000 instructions, and each range of addresses gets a list.

`large` is 64 MiB of .debug_info: a thousand units, 5 million entries and 40 million attributes, as compilers write them.
With --tools `llvm-dwarfdump --debug-info` and `readelf --debug-dump=info` print it too. `shared` are 15,000, 30,000 and
60,000 units over one long table of abbreviations, each with an offset of its own into it at which a declaration begins. They
aren't changed: a table is written for each offset, as many bytes as their weight bounds. `overlapping` are 1,000, 2,000 and
4,000 units with offsets that lie within a declaration, so that each is a table of its own, which is read by itself. What
these take grows by four where the size doubles, until 2^25 bytes were read again: then memory is said to be wanting.

Each line has what was done, the seconds of the best of three runs (the processor's, and of one run, for the tools), the
peak memory in MiB, and by how much both grew since the file of half the size. All growth but that of `overlapping` has to be
below 2.5, unless it is of less than 0.05 seconds or 32 MiB: the script ends with status 1 where some isn't, or where one
has no answer.
"""
import argparse
import multiprocessing
import os
import struct
import subprocess
import sys
import tempfile

from hostile import LEAST_MIB, LEAST_SECONDS, MOST, growth, show
from hostile_files import BASE, SHT_PROGBITS, TEXT, File
from profiles import spent
from references import build

PROGRAM, LIBRARIES = "units_bench", ["elf_image", "addr_map", "table_core", "dw_unit"]
FILES = {
    "src/main.rt": """//! How fast units are listed and changed.
#![tactic(auto)]

ghost use Rattle.std.specs.Prelude.{◌≡◌, ◌<◌, ◌^◌, ℕ, All, IfOk, IfSome, length, slice_index_or};
ghost use Rattle.addr_map.specs.declared.span.Span.{Span};
ghost use Rattle.rb_bytes.specs.FirstFault.{IsFree};
ghost use Rattle.dw_unit.specs.Faults.{HasDwarfFault, unit_fault_places};
ghost use Rattle.dw_unit.specs.Tables.{sections_of};
ghost use Rattle.units_bench.specs.Moves.{span_number};

use addr_map::{AddrMap, Span};
use dw_unit::attribute::{DW_AT_high_pc, DW_AT_ranges};
use dw_unit::{Entry, abbrev_weight, change, units};
use elf_image::{Elf, read};
use rb_bytes::fault::NoMemory;
use std::alloc::{AllocError, Global};
use std::time::Instant;
use std::{env, fs};
use table_core::ListAt;

const INSTRUCTIONS: u64 = 714_000;
const MOST_WEIGHT: u64 = 4_000_000_000;

fn milliseconds(rt: &HostRuntime, start: Instant) -> Result<u128, anyhow::Error> {
    Ok(start.elapsed(rt)?.as_millis())
}

fn spans(alloc: Global) -> Result<Vec<Span>, AllocError>
    ensures count { IfOk result (λ v. length v.items ≡ 714000) }
    ensures each { IfOk result (λ v. (k : ℕ) → (d : Span) → k < 714000 → slice_index_or v.items k d ≡ span_number k) }
{
    let mut spans = Vec::new(alloc);
    for i in 0..INSTRUCTIONS {
        spans.push(Span {
            out: 0x2000_0000 + 4 * i,
            len: 4,
            input: 0x10078 + 4 * i,
        })?;
    }
    Ok(spans)
}

fn moves(alloc: Global) -> Result<AddrMap, NoMemory> {
    let spans = spans(alloc)?;
    AddrMap::new(alloc, spans)
}

// The list of an entry that has a high address.
fn list_of(entry: &Entry) -> Option<ListAt>
    ensures { IfSome result (λ l. l.offset < 2 ^ 32) }
{
    for attr in &entry.attrs {
        if attr.name == DW_AT_high_pc {
            return Some(ListAt {
                entry: entry.place,
                attr: DW_AT_ranges,
                offset: entry.place % (1 << 32),
            });
        }
    }
    None
}

fn lists_of(alloc: Global, entries: &[Entry]) -> Result<Vec<ListAt>, AllocError>
    ensures { IfOk result (λ v. All (λ l. l.offset < 2 ^ 32) v.items) }
{
    let mut lists = Vec::new(alloc);
    for entry in entries {
        if let Some(list) = list_of(entry) {
            lists.push(list)?;
        }
    }
    Ok(lists)
}

// Weighs the written abbreviations of a file, and changes its units where that is asked for.
fn change_all(rt: &HostRuntime, elf: &Elf, lists: &[ListAt], what: &str) -> Result<(), anyhow::Error>
    requires sound { IsFree (HasDwarfFault (unit_fault_places (sections_of elf.now))) }
    requires low { All (λ l. l.offset < 2 ^ 32) lists.now }
{
    let map = moves(rt.alloc())?;
    let start = Instant::now(rt)?;
    let weight = abbrev_weight(rt.alloc(), elf)?;
    println!(rt; "weight {} {weight}", milliseconds(rt, start)?)?;
    if weight > MOST_WEIGHT || what != "change" {
        return Ok(());
    }
    let start = Instant::now(rt)?;
    let (info, abbrevs) = change(rt.alloc(), elf, &map, lists)?;
    println!(rt; "change {} {} {}", milliseconds(rt, start)?, info.len(), abbrevs.len())?;
    Ok(())
}

fn count_attrs(entries: &[Entry]) -> u64 {
    let mut count: u64 = 0;
    for entry in entries {
        count = count.wrapping_add(entry.attrs.len() as u64);
    }
    count
}

// Lists the entries of a file, and does more with them where that is asked for.
fn measure(rt: &HostRuntime, file: &[u8], what: &str) -> Result<(), anyhow::Error> {
    let elf = read(rt.alloc(), file)?;
    let start = Instant::now(rt)?;
    let entries = units(rt.alloc(), &elf)?;
    println!(rt; "units {} {} {}", milliseconds(rt, start)?, entries.len(), count_attrs(&entries))?;
    if what == "units" {
        return Ok(());
    }
    let lists = lists_of(rt.alloc(), &entries)?;
    drop(entries);
    println!(rt; "dropped 0 {}", lists.len())?;
    change_all(rt, &elf, &lists, what)
}

fn main(rt: HostRuntime) -> Result<(), anyhow::Error> {
    let mut given = env::args(&rt)?.skip(1);
    let (Some(what), Some(name)) = (given.next(), given.next()) else {
        return Ok(());
    };
    let file = fs::read(&rt, &name)?;
    measure(&rt, &file, &what)
}
""",
    "specs/Lib.antt": "pub mod Moves\n",
    "specs/Moves.antt": """use Rattle.std.specs.Prelude.{ℕ, ◌+◌, ◌*◌}
use Rattle.addr_map.specs.declared.span.Span.{Span}

abbrev pub span_number : ℕ → Span
span_number i = record { out = 0x20000000 + 4 * i; len = 4; input = 0x10078 + 4 * i }
""",
    "proofs/Lib.antt": "pub mod Apart\n",
    "proofs/Apart.antt": """use Rattle.std.proofs.Common.{◌≡◌, ◌≢◌, ◌<◌, ◌+◌, ◌*◌, ◌∙◌, ℕ, List, length, get_or, arith, ap, sym}
use Rattle.std.specs.Prelude.{AllPairs}
use Rattle.std.proofs.lemmas.Grind.{common_steps}
use Rattle.addr_map.specs.Spans.{ShareNoByte}
use Rattle.addr_map.specs.declared.span.Span.{Span}
use Rattle.units_bench.specs.Moves.{span_number}

far : (i j : ℕ) → i < j → ShareNoByte (span_number i) (span_number j)
far i j lt p a b = grind (arith, common_steps)

other : (i j : ℕ) → i < j → 0x10078 + 4 * i ≡ 0x10078 + 4 * j → ⊥
other i j lt e = omega arith

module _ (xs : List Span) (n : length xs ≡ 714000) (each : (k : ℕ) → (d : Span) → k < 714000 → get_or xs k d ≡ span_number k) where
  pub once : AllPairs (λ s t. s.input ≢ t.input) xs
  once i j d lt inside e =
      other i j lt (sym (ap (λ (s : Span). s.input) (each i d (omega arith))) ∙ e ∙ ap (λ (s : Span). s.input) (each j d (omega arith)))

  pub disjoint : AllPairs ShareNoByte xs
  disjoint i j d lt inside = rw (each i d (omega arith), each j d (omega arith)) (far i j lt)
""",
    "proofs/spans/Invariants.antt": """use Rattle.std.proofs.Common.{◌≡◌, ℕ, ◌<◌, length, get_or}
use Rattle.addr_map.specs.declared.span.Span.{Span}
use Rattle.units_bench.specs.Moves.{span_number}
use Rattle.units_bench.proofs.spans.Given as goal

abbrev pub invariant-loop-i : goal.invariant-loop-i
invariant-loop-i l = record {
  count : length l.spans.items ≡ l.i;
  each : (k : ℕ) → (d : Span) → k < l.i → get_or l.spans.items k d ≡ span_number k;
}
""",
    "proofs/lists_of/Invariants.antt": """use Rattle.std.proofs.Common.{◌<◌, ◌^◌, All}
use Rattle.units_bench.proofs.lists_of.Given as goal

abbrev pub invariant-loop-entry : goal.invariant-loop-entry
invariant-loop-entry l = All (λ x. x.offset < 2 ^ 32) l.lists.items
""",
}

JUMP, RETURN = bytes.fromhex("6f004000"), bytes.fromhex("67800000")
INSTRUCTIONS, UNITS, FUNCTIONS, VARIABLES = 714_000, 1000, 357, 13
INFO, ABBREV, STRINGS = b".debug_info", b".debug_abbrev", b".debug_str"
STRP, DATA1, DATA4, REF4, ADDR, OFFSET, FLAG, EXPRESSION = 0x0E, 0x0B, 0x06, 0x13, 0x01, 0x17, 0x19, 0x18
# a declaration: the tag, whether it has children, and names with their forms
UNIT = 0x11, 1, [(0x25, STRP), (0x13, DATA1), (0x03, STRP), (0x1B, STRP), (0x11, ADDR), (0x12, DATA4), (0x10, OFFSET), (0x53, FLAG)]
TYPE = 0x24, 0, [(0x03, STRP), (0x3E, DATA1), (0x0B, DATA1), (0x3A, DATA1), (0x3B, DATA1), (0x39, DATA1), (0x3F, FLAG), (0x34, FLAG)]
FUNCTION = 0x2E, 1, [(0x03, STRP), (0x3A, DATA1), (0x3B, DATA1), (0x49, REF4), (0x3F, FLAG), (0x11, ADDR), (0x12, DATA4), (0x40, EXPRESSION)]
VARIABLE = 0x34, 0, [(0x03, STRP), (0x3A, DATA1), (0x3B, DATA1), (0x39, DATA1), (0x49, REF4), (0x3F, FLAG), (0x34, FLAG), (0x3C, FLAG)]
PAIRS = 250  # of a declaration, which has 256 at most
FRAME = bytes([7]) + 6 * b"\x96" + b"\x9c"  # an expression of eight bytes, the first of which is its length


def uleb(number):
    out = bytearray()
    while number > 127:
        out.append(number & 127 | 128)
        number >>= 7
    return bytes(out) + bytes([number])


def declaration(code, tag, children, pairs):
    return uleb(code) + bytes([tag, children]) + b"".join(uleb(name) + bytes([form]) for name, form in pairs) + b"\0\0"


def unit(offset, entries):
    """A compilation unit with its abbreviations at an offset."""
    return struct.pack("<IHBBI", len(entries) + 8, 5, 1, 8, offset) + entries


def file_of(info, abbrevs, code):
    names = b"\0" + b"".join(name + b"\0" for name in (INFO, ABBREV, STRINGS))
    file = File(code, names)
    for name, contents in ((INFO, info), (ABBREV, abbrevs), (STRINGS, b"name\0")):
        file.add(SHT_PROGBITS, contents, name=names.index(name))
    return file.bytes()


def large(_):
    table = b"".join(declaration(1 + code, *kind) for code, kind in enumerate((UNIT, TYPE, FUNCTION, VARIABLE))) + b"\0"
    own = struct.pack("<BIBIIQIIB", 1, 0, 2, 0, 0, 0, 0, 0, 0)[:-1]
    base = struct.pack("<BIBBBBB", 2, 0, 5, 4, 1, 1, 1)
    type_at = 12 + len(own)
    function = struct.pack("<BIBBIQI", 3, 0, 1, 1, type_at, 0, 8) + FRAME
    variable = struct.pack("<BIBBBI", 4, 0, 1, 1, 1, type_at)
    each = function + VARIABLES * variable + b"\0"
    template = own + base + FUNCTIONS * each + b"\0"
    info = bytearray()
    for number in range(UNITS):
        entries = bytearray(template)
        start = BASE + TEXT + 8 * FUNCTIONS * number
        struct.pack_into("<QI", entries, 14, start, 8 * FUNCTIONS)
        for k in range(FUNCTIONS):
            struct.pack_into("<Q", entries, len(own) + len(base) + len(each) * k + 11, start + 8 * k)
        info += unit(len(table) * number, bytes(entries))
    return file_of(info, table * UNITS, (JUMP + RETURN) * (INSTRUCTIONS // 2))


def shared(count):
    """Each unit's abbreviations begin with another declaration of one table."""
    table, offsets = bytearray(), []
    for code in range(1, count + 1):
        offsets.append(len(table))
        table += declaration(code, 0x11, 0, [(0x13, DATA1)])
    info = b"".join(unit(offset, uleb(number + 1) + b"\x01") for number, offset in enumerate(offsets))
    return file_of(info, bytes(table) + b"\0", RETURN)


def overlapping(count):
    """Each unit's abbreviations begin at another place within the pairs of a declaration, of which each has 250."""
    long = bytes([DATA1]) * (2 * PAIRS + 3) + b"\0\0"
    offsets = (number // PAIRS * len(long) + number % PAIRS * 2 + 2 for number in range(count))
    return file_of(b"".join(unit(offset, b"") for offset in offsets), long * (count // PAIRS) + b"\0", RETURN)


# how a file of a kind is made, for which counts, and what is done with it
KINDS = {
    "large": (large, [0], ["units", "weight", "change"]),
    "shared": (shared, [15_000, 30_000, 60_000], ["units", "weight"]),
    "overlapping": (overlapping, [1_000, 2_000, 4_000], ["units"]),
}
BOUNDED = ["overlapping"]  # what a constant bounds, and not the size
NO_ANSWER = "no answer: memory is wanting, or a fault"


def write(path, kind, count):
    with open(path, "wb") as file:
        file.write(KINDS[kind][0](count))


def measure(command):
    """What a command prints, by the words before it; the seconds of the processor, and the peak in MiB since it said `dropped`."""
    # (a child of its own, and not by `spent`, since its number is wanted while it runs)
    child = subprocess.Popen(command, stdout=subprocess.PIPE, stderr=subprocess.DEVNULL, text=True)
    said = {}
    for line in child.stdout:
        what, *numbers = line.split()
        said[what] = [int(number) for number in numbers]
        if what == "dropped":
            with open(f"/proc/{child.pid}/clear_refs", "w", encoding="ascii") as file:
                file.write("5")  # the peak is counted from here on
    usage = os.wait4(child.pid, 0)[2]
    return said, usage.ru_utime + usage.ru_stime, usage.ru_maxrss / 1024


def best_of(program, what, path):
    """The best seconds of what the program does, the peak, and the numbers that it says of it."""
    runs = [measure([program, what, path]) for _ in range(3)]
    done = [(said[what][0] / 1000, peak, said[what][1:]) for said, _, peak in runs if what in said]
    if done:
        return min(seconds for seconds, _, _ in done), min(peak for _, peak, _ in done), " ".join(map(str, done[0][2]))
    return min(seconds for _, seconds, _ in runs), min(peak for _, _, peak in runs), NO_ANSWER


def quiet(command):
    """The seconds and the peak of a tool whose output isn't kept."""
    took = spent(command, stdout=subprocess.DEVNULL, stderr=subprocess.DEVNULL)
    if took.status != 0:
        sys.exit(f"{' '.join(command)} ended with {took.status}")
    return took.seconds, took.peak


def run(program, kind, path, tools):
    """Prints the lines of a kind; whether its growth is small enough."""
    well, before = True, {}
    for count in KINDS[kind][1]:
        # in a process of its own, since a child's peak counts what its parent had when it began
        maker = multiprocessing.Process(target=write, args=(path, kind, count))
        maker.start()
        maker.join()
        if maker.exitcode != 0:
            sys.exit(f"{kind} {count} can't be made")
        for what in KINDS[kind][2]:
            seconds, peak, numbers = best_of(program, what, path)
            old = before.get(what, (None, None))
            grew = growth(seconds, old[0], LEAST_SECONDS), growth(peak, old[1], LEAST_MIB)
            before[what] = seconds, peak
            well = well and numbers != NO_ANSWER
            well = well and (kind in BOUNDED or all(each is None or each < MOST for each in grew))
            print(f"{kind:12} {count or '':6} {what:7} {seconds:8.2f} s {show(grew[0]):5} {peak:8.0f} MiB {show(grew[1]):5} {numbers}", flush=True)
        if tools and kind == "large":
            for command in (["llvm-dwarfdump", "--debug-info", path], ["readelf", "--debug-dump=info", path]):
                seconds, peak = quiet(command)
                print(f"{kind:12} {'':6} {command[0]:14} {seconds:8.2f} s {peak:8.0f} MiB", flush=True)
    return well


def main():
    words = argparse.ArgumentParser(description="seconds and memory of units")
    words.add_argument("--folder", help="where the program is built, and stays")
    words.add_argument("--tools", action="store_true", help="other tools too")
    words.add_argument("kinds", nargs="*", choices=[[], *KINDS], default=[])
    given = words.parse_args()
    with tempfile.TemporaryDirectory() as folder:
        program = build(given.folder or folder, PROGRAM, LIBRARIES, FILES)
        well = [run(program, kind, os.path.join(folder, "file"), given.tools) for kind in given.kinds or KINDS]
    sys.exit(0 if all(well) else 1)


if __name__ == "__main__":
    main()
