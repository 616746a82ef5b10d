#!/usr/bin/env python3
"""Seconds that a map of 8,388,608 spans takes: to make, to look up in, and to print.

    python3 bench/map.py [RUNS]

No command of the program makes so large a map, so the script puts a small program into a temporary folder, beside
copies of the crates that it stands on, proves it by `rt`, which takes some minutes, and runs it. The spans are once in the
order of their inputs, and once in blocks of eight that were dealt out. Look-ups go up through the map, and all over
it. Each line has the median of the runs and millions of spans, look-ups or bytes of text a second.
"""
import re
import statistics
import subprocess
import sys
import tempfile

from references import build

PROGRAM, LIBRARIES = "map_bench", ["addr_map"]
FILES = {
    "src/main.rt": """//! How fast maps are.
#![tactic(auto)]

ghost use Rattle.std.specs.Prelude.{◌≡◌, ◌≢◌, ℕ, ◌<◌, AllPairs, IfOk, length, slice_index_or};
ghost use Rattle.addr_map.specs.Spans.{ShareNoByte};
ghost use Rattle.addr_map.specs.declared.span.Span.{Span};
ghost use Rattle.map_bench.specs.Places.{place, span_number};

use addr_map::{AddrMap, Span};
use std::alloc::{AllocError, Global};
use std::time::Instant;

const COUNT: u64 = 8_388_608;

// In order, or blocks of 8 transposed.
fn place(mixed: bool, i: u64) -> u64
    requires { i < 8388608 }
    ensures { result ≡ place mixed i }
{
    if mixed {
        i / 8 % 1024 * 8192 + i / 8 / 1024 * 8 + i % 8
    } else {
        i
    }
}

fn spans(alloc: Global, mixed: bool) -> Result<Vec<Span>, AllocError>
    ensures count { IfOk result (λ v. length v.items ≡ 8388608) }
    ensures each { IfOk result (λ v. (k : ℕ) → (d : Span) → k < 8388608 → slice_index_or v.items k d ≡ span_number mixed k) }
{
    let mut spans = Vec::with_capacity(alloc, COUNT as usize)?;
    for i in 0..COUNT {
        spans.push(Span {
            out: 0x2000_0000 + 4 * i,
            len: 4,
            input: 0x10000 + 4 * place(mixed, i),
        })?;
    }
    Ok(spans)
}

// The number of the look-up's span: in order, or all over the map.
fn pick(scattered: bool, k: u64) -> u64
    ensures { result < 8388608 }
{
    if scattered {
        k.wrapping_mul(0x9e37_79b9_7f4a_7c15) >> 41
    } else {
        k % COUNT
    }
}

fn look_up(rt: &HostRuntime, map: &AddrMap, scattered: bool) -> Result<(), anyhow::Error> {
    let start = Instant::now(rt)?;
    let mut sum = 0u64;
    for k in 0..10_000_000u64 {
        let j = pick(scattered, k);
        sum = sum.wrapping_add(map.moved(0x10000 + 4 * j).unwrap_or(1));
    }
    println!(rt; "moved scattered={scattered} {:?} {sum:x}", start.elapsed(rt)?)?;
    let start = Instant::now(rt)?;
    for k in 0..10_000_000u64 {
        let j = pick(scattered, k);
        sum = sum.wrapping_add(map.owner(0x2000_0000 + 4 * j + 2).unwrap_or(1));
    }
    println!(rt; "owner scattered={scattered} {:?} {sum:x}", start.elapsed(rt)?)?;
    Ok(())
}

fn main(rt: HostRuntime) -> Result<(), anyhow::Error> {
    let alloc = rt.alloc();
    for mixed in [false, true] {
        let spans = spans(alloc, mixed)?;
        let start = Instant::now(&rt)?;
        let map = AddrMap::new(alloc, spans)?;
        println!(rt; "new mixed={mixed} {:?}", start.elapsed(&rt)?)?;
        look_up(&rt, &map, false)?;
        look_up(&rt, &map, true)?;
        let start = Instant::now(&rt)?;
        let mut text = Vec::new(alloc);
        map.text(&mut text)?;
        println!(rt; "text {:?} {}", start.elapsed(&rt)?, text.len())?;
    }
    Ok(())
}
""",
    "specs/Lib.antt": "pub mod Places\n",
    "specs/Places.antt": """use Rattle.std.specs.Prelude.{ℕ, ◌+◌, ◌*◌, ◌/◌, ◌%◌, Bool, true, false}
use Rattle.addr_map.specs.declared.span.Span.{Span}

abbrev pub place : Bool → ℕ → ℕ
place true i = i / 8 % 1024 * 8192 + i / 8 / 1024 * 8 + i % 8
place false i = i

abbrev pub span_number : Bool → ℕ → Span
span_number mixed i = record { out = 0x20000000 + 4 * i; len = 4; input = 0x10000 + 4 * place mixed i }
""",
    "proofs/Lib.antt": "pub mod Valid\n",
    "proofs/Valid.antt": """use Rattle.std.proofs.Common.{◌≡◌, ◌≢◌, ◌<◌, ◌+◌, ◌*◌, ℕ, List, Bool, true, false, length, get_or, arith, refl, ap, sym, ◌∙◌}
use Rattle.std.specs.Prelude.{AllPairs}
use Rattle.std.proofs.lemmas.Grind.{common_steps}
use Rattle.addr_map.specs.Spans.{ShareNoByte}
use Rattle.addr_map.specs.declared.span.Span.{Span}
use Rattle.map_bench.specs.Places.{place, span_number}

other_place : (mixed : Bool) (i j : ℕ) → i < j → j < 8388608 → place mixed i ≢ place mixed j
other_place true i j lt b e = omega arith
other_place false i j lt b e = omega arith

pub apart : (mixed : Bool) (xs : List Span) → length xs ≡ 8388608 → ((k : ℕ) → (d : Span) → k < 8388608 → get_or xs k d ≡ span_number mixed k)
    → AllPairs (λ s t. s.input ≢ t.input) xs
apart mixed xs n each i j d lt inside e =
    let x = each i d (omega arith) in
    let y = each j d (omega arith) in
    other_place mixed i j lt (omega arith) (same (place mixed i) (place mixed j) (sym (ap (λ s. s.input) x) ∙ e ∙ ap (λ s. s.input) y))
  where
    same : (a b : ℕ) → 0x10000 + 4 * a ≡ 0x10000 + 4 * b → a ≡ b
    same a b e = omega arith

pub disjoint : (mixed : Bool) (xs : List Span) → length xs ≡ 8388608 → ((k : ℕ) → (d : Span) → k < 8388608 → get_or xs k d ≡ span_number mixed k)
    → AllPairs ShareNoByte xs
disjoint mixed xs n each i j d lt inside =
    rw (each i d (omega arith), each j d (omega arith)) (far i j lt)
  where
    far : (i j : ℕ) → i < j → ShareNoByte (span_number mixed i) (span_number mixed j)
    far i j lt p a b = grind (arith, common_steps)
""",
    "proofs/spans/Invariants.antt": """use Rattle.std.proofs.Common.{◌≡◌, ℕ, ◌<◌, length, get_or}
use Rattle.addr_map.specs.declared.span.Span.{Span}
use Rattle.map_bench.specs.Places.{span_number}
use Rattle.map_bench.proofs.spans.Given as goal

abbrev pub invariant-loop-i : goal.invariant-loop-i
invariant-loop-i l = record {
  count : length l.spans.items ≡ l.i;
  each : (k : ℕ) → (d : Span) → k < l.i → get_or l.spans.items k d ≡ span_number l.mixed k;
}
""",
}
SECONDS = {"ns": 1e-9, "\u00b5s": 1e-6, "ms": 1e-3, "s": 1.0}
LOOK_UPS, SPANS = 10_000_000, 8_388_608


def measure(program, runs):
    """The seconds of each line that the program prints, by what stands before them, in order."""
    times = {}
    for _ in range(runs):
        seen = {}
        for line in subprocess.run([program], capture_output=True, text=True, check=True).stdout.splitlines():
            what, number, unit = re.match(r"(.*?) ([0-9.]+)(ns|\u00b5s|ms|s)\b", line).groups()
            nth = seen[what] = seen.get(what, 0) + 1
            times.setdefault((what, nth), []).append(float(number) * SECONDS[unit])
    return times


def main():
    runs = int(sys.argv[1]) if len(sys.argv) > 1 else 5
    with tempfile.TemporaryDirectory() as folder:
        program = build(folder, PROGRAM, LIBRARIES, FILES)
        for (what, nth), seconds in measure(program, runs).items():
            median = statistics.median(seconds)
            count = SPANS if what.startswith("new") else LOOK_UPS if what.startswith(("moved", "owner")) else 154_959_872
            print(f"{what:24} {nth}  {median:8.3f} s  {count / median / 1e6:8.1f} million a second")


if __name__ == "__main__":
    main()
