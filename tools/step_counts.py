"""Counts the steps of `trial`, for the tools that measure; it is no command.

The program's count of steps takes no bytes when it runs, so the program cannot tell it. Here a copy of the sources gets a counter that
is a number, and a program that prints it. The toolchain's command `rt try` builds and runs that copy, and proves nothing of it.
"""
import os
import subprocess
import sys

import timing_program

NAME = "step_counting"
STANDS_ON = ("edge_io", "gdc_run", "gdc_words", "itoa")
COUNTER = "crates/edge_io/src/counting.rt"

# A build with checks is slow: all sizes together get so long.
MOST_SECONDS = 1800

# What stands in the counter, and what stands there in the copy.
CHANGES = (
    ("    share: Share<L>,\n}", "    share: Share<L>,\n    count: u64,\n}"),
    ("        Steps { book, share }", "        Steps { book, share, count: 0 }"),
    ("        self.book.add(&mut self.share, 1);", "        self.book.add(&mut self.share, 1);\n        self.count += 1;"),
    ("    /// One step more.", "    /// How many steps there were.\n    pub fn count(&self) -> u64 {\n        self.count\n    }\n\n    /// One step more."),
)

PROGRAM = """\
//! Prints the steps of trials: a line with the shape, the size and the count for each.
#![tactic(auto)]
ghost use Rattle.std.specs.Prelude.{◌≡◌, ◌<◌};

use edge_io::{MemShelf, MemSink, OutOfMemory, Steps, Text};
use gdc_run::run;
use gdc_words::Words;
use std::alloc::Global;
use std::marker::Brand;
use std::sync::ledger::{Blank, Ledger};

const SIZES: &[u32] = &[@SIZES@];

fn words_of(alloc: Global, shape: &[u8], size: u32) -> Result<Words, OutOfMemory> {
    let mut digits = itoa::Buffer::new();
    let size = digits.format(size).as_bytes();
    let mut words = Words::new(alloc);
    for word in [b"trial".as_slice(), b"--shape".as_slice(), shape, b"--size".as_slice(), size] {
        words.push(Text::from_bytes(alloc, word)?)?;
    }
    Ok(words)
}

fn steps_of<L: Ledger>(alloc: Global, blank: Blank, shape: &[u8], size: u32) -> Result<u64, OutOfMemory>
    requires name { blank.name ≡ L.name }
    requires parts { blank.parts ≡ L.parts }
    requires some_part { 0 < blank.parts }
{
    let words = words_of(alloc, shape, size)?;
    let mut shelf = MemShelf::new(alloc, 1);
    let mut text = MemSink::new(alloc, 1000, 1000)?;
    let mut line = MemSink::new(alloc, 1000, 1000)?;
    let mut steps = Steps::<L>::new(blank);
    let _ = run(alloc, &words, &mut shelf, &mut text, &mut line, &mut steps);
    Ok(steps.count())
}

fn main(rt: HostRuntime) {
    let alloc = rt.alloc();
    for (name, shape) in [("chain", b"chain".as_slice()), ("block", b"block".as_slice())] {
        for size in SIZES {
            if let Ok(steps) = steps_of::<Brand>(alloc, Blank::new(1), shape, *size) {
                let _ = println!(rt; "{name} {size} {steps}");
            }
        }
    }
}
"""


def with_a_count(folder):
    """Gives the counter of the copied sources a number."""
    path = os.path.join(folder, COUNTER)
    with open(path, encoding="utf-8") as file:
        text = file.read()
    for here, there in CHANGES:
        if text.count(here) != 1:
            sys.exit(f"step_counts: the counter of edge_io is not as it was: {here.strip()}")
        text = text.replace(here, there)
    timing_program.write_text(path, text)


def step_counts(folder, sizes):
    """The steps of each shape at each of the sizes, by the pair of both."""
    program = PROGRAM.replace("@SIZES@", ", ".join(map(str, sizes)))
    own = timing_program.lay_out(folder, NAME, STANDS_ON, {"src/main.rt": program})
    with_a_count(folder)
    ended = subprocess.run(["rt", "try", NAME, "--seconds", str(MOST_SECONDS)], cwd=own, stdin=subprocess.DEVNULL, check=False, stdout=subprocess.PIPE,
                           stderr=subprocess.STDOUT, text=True)
    counts = {}
    for line in ended.stdout.splitlines():
        words = line.split()
        if len(words) == 3 and words[0] in ("chain", "block") and words[1].isdigit() and words[2].isdigit():
            counts[words[0], int(words[1])] = int(words[2])
    if len(counts) != 2 * len(set(sizes)):
        sys.exit(f"step_counts: not all trials were counted\n{ended.stdout[-2000:]}")
    return counts
