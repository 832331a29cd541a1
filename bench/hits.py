"""A program that strikes a block again and again, built in a copy of the crates, so that hits can be timed.

It is proved and built as any other program of the kit, but is no part of the gate.
"""

import os
import shutil
import subprocess

ROUNDS = 10
LANES = 17
PASSES = 100

LISTED = "hit_bench: recipe_hit life_rle life_cells life_steps life_plane\n"

MAIN = r"""//! Strikes a block again and again, so that it can be timed. Without words: a glider of each lane from -8 to 8, ten rounds. With
//! a word: a glider that passes the block and never comes to rest, a hundred times.
#![tactic(auto)]

ghost use Rattle.std.specs.Prelude.{◌≡◌, ◌<◌, ◌^◌};
ghost use Rattle.life_cells.specs.Cells.{alive};
ghost use Rattle.life_cells.specs.Boxes.{IsInRange};

use life_cells::CellSet;
use life_rle::read_rle;
use life_steps::Steps;
use recipe_hit::striking::hit;
use std::alloc::Global;
use std::env;
use std::marker::Brand;
use std::process::ExitCode;
use std::sync::ledger::{Blank, Ledger};

/// A block with its top left at (0,0).
const BLOCK: &[u8] = b"x = 2, y = 2\n2o$2o!";

const LANES: [i32; 17] = [
    -8, -7, -6, -5, -4, -3, -2, -1, 0, 1, 2, 3, 4, 5, 6, 7, 8,
];

// Whether a glider of a lane has a hit.
fn strikes<L: Ledger>(alloc: Global, cells: &CellSet, lane: i32, blank: Blank) -> bool
    requires cells { IsInRange (2 ^ 40) (alive cells.now) }
    requires name { blank.name ≡ L.name }
    requires parts { blank.parts ≡ L.parts }
    requires some { 0 < blank.parts }
{
    let mut steps = Steps::<L>::new(blank);
    hit(alloc, cells, i64::from(lane), &mut steps).is_ok()
}

// The same, with nothing counted.
fn strikes_at(alloc: Global, cells: &CellSet, lane: i32) -> bool
    requires { IsInRange (2 ^ 40) (alive cells.now) }
{
    strikes::<Brand>(alloc, cells, lane, Blank::new(1))
}

// How many gliders have a hit, round after round.
fn rounds(alloc: Global, cells: &CellSet, count: u32) -> u32
    requires { IsInRange (2 ^ 40) (alive cells.now) }
{
    let mut hits = 0_u32;
    for _round in 0..count {
        for lane in LANES {
            if strikes_at(alloc, cells, lane) {
                hits = hits.wrapping_add(1);
            }
        }
    }
    hits
}

// How many gliders that pass the block have a hit.
fn passes(alloc: Global, cells: &CellSet, count: u32) -> u32
    requires { IsInRange (2 ^ 40) (alive cells.now) }
{
    let mut hits = 0_u32;
    for _round in 0..count {
        if strikes_at(alloc, cells, 1000) {
            hits = hits.wrapping_add(1);
        }
    }
    hits
}

fn main(rt: HostRuntime) -> ExitCode {
    let Ok(pattern) = read_rle(rt.alloc(), BLOCK) else {
        return ExitCode::from(12);
    };
    let Ok(words) = env::args(&rt) else {
        return ExitCode::from(20);
    };
    let hits = if words.count() > 1 {
        passes(rt.alloc(), &pattern.cells, 100)
    } else {
        rounds(rt.alloc(), &pattern.cells, 10)
    };
    ExitCode::from(if hits > 0 { 1 } else { 0 })
}
"""

LEDGER = """use Rattle.hit_bench.proofs.strikes_at.Given as goal

-- the ledger of the blank
abbrev pub ghosts-strikes : goal.ghosts-strikes
ghosts-strikes a = record { name = a.blank.name; parts = a.blank.parts }
"""


def put(path, text):
    os.makedirs(os.path.dirname(path), exist_ok=True)
    with open(path, "w") as file:
        file.write(text)


def built(top, folder):
    """The path of the built program, or nothing where it was not built."""
    copy = os.path.join(folder, "crates_and_one")
    shutil.copytree(os.path.join(top, "crates"), os.path.join(copy, "crates"), ignore=shutil.ignore_patterns("out"))
    with open(os.path.join(top, "crates.txt")) as file:
        put(os.path.join(copy, "crates.txt"), file.read() + LISTED)
    crate = os.path.join(copy, "crates", "hit_bench")
    put(os.path.join(crate, "src", "main.rt"), MAIN)
    put(os.path.join(crate, "proofs", "strikes_at", "Invariants.antt"), LEDGER)
    log = os.path.join(folder, "log")
    with open(log, "w") as file:
        subprocess.run(["rt", "run"], cwd=crate, stdout=file, stderr=file)
    program = os.path.join(crate, "out", "hit_bench")
    return program if os.path.exists(program) else None
