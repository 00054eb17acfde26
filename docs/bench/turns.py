#!/usr/bin/env python3
"""Measures turns a second of the ticket lock, beside std's Mutex doing the same, and prints a table for docs/BENCHMARK.md.

Usage: turns.py [TURNS]    (run it at the repository's top; TURNS is the number of turns of all threads together)

It writes a program into a scratch folder beside a copy of the lock's crate, and proves and builds it there by `rt run`. Each row
is the best of five runs. One turn adds one to a number; the lock's value has an empty journal.
"""
import os
import shutil
import subprocess
import sys
import tempfile

PROGRAM = """\
#![tactic(auto)]
ghost use Rattle.std.specs.Prelude.{◌≡◌, ◌+◌, ◌%◌, ◌^◌, ◌≤◌, []};

use std::alloc::{AllocError, Global};
use std::env;
use std::io;
use std::sync::{Mutex, Wait};
use std::thread;
use std::thread::Threads;
use std::time::{Duration, Instant};
use turn_lock::{Change, Kept, Pass, TurnLock};

#[derive(Drop)]
struct Number {
    number: u64,
    turns: u64,
}

impl Kept for Number {
    type Note = ();

    ghost journal = { λ _. [] };

    ghost turns = { λ n. n.turns };

    ghost width = { λ _. 0 };

    fn turns(&self) -> u64 {
        self.turns
    }
}

#[derive(Clone, Copy)]
struct AddOne;

impl Change<Number> for AddOne {
    type Answer = u64;

    ghost fits = { λ _ _. Unit {0} };

    ghost does = { λ _ _ before _ answer. answer ≡ before.number };

    fn apply(self, _number: u32, value: &mut Number) -> u64 {
        add_one(value)
    }
}

fn add_one(value: &mut Number) -> u64
    ensures before { result ≡ value.old.number }
    ensures turns { value.new.turns ≡ (value.old.turns + 1) % 2 ^ 64 }
{
    let before = value.number;
    value.number = before.wrapping_add(1);
    value.turns = value.turns.wrapping_add(1);
    before
}

fn take_turns<R: Wait + Sync>(rt: &R, lock: &TurnLock<Number>, pass: &mut Pass<Number>, each: u64)
    requires { pass.old.lock ≡ lock.now.lock }
{
    for _ in 0..each {
        lock.turn(rt, pass, AddOne);
    }
}

fn by_lock<R: Threads + Wait + Sync>(rt: &R, alloc: Global, threads: u32, each: u64) -> Result<(), AllocError>
    requires { 1 ≤ threads }
{
    let (lock, mut passes) = TurnLock::new(rt, alloc, Number { number: 0, turns: 0 }, threads)?;
    let shared = &lock;
    let work = |_: usize, pass: &mut Pass<Number>|
        requires { pass.now.lock ≡ shared.now.lock }
    { take_turns(rt, shared, pass, each) };
    thread::for_each_mut(rt, passes.as_mut_slice(), threads as usize, &work);
    Ok(())
}

fn by_mutex<R: Threads + Wait + Sync>(rt: &R, alloc: Global, threads: u32, each: u64) -> Result<(), AllocError>
    requires { 1 ≤ threads }
{
    let mutex = Mutex::new(Number { number: 0, turns: 0 });
    let mut places: Vec<u32> = Vec::new(alloc);
    for place in 0..threads {
        places.push(place)?;
    }
    let work = |_: usize, _place: &mut u32| {
        for _ in 0..each {
            add_one(&mut mutex.lock(rt));
        }
    };
    thread::for_each_mut(rt, places.as_mut_slice(), threads as usize, &work);
    Ok(())
}

fn main(rt: HostRuntime) -> io::Result<()> {
    let mut words: Vec<String> = Vec::new(rt.alloc());
    for word in env::args(&rt)?.skip(1) {
        words.push(word)?;
    }
    if words.len() < 3 {
        return Ok(());
    }
    let threads: u32 = words[1].parse().unwrap_or(1);
    let turns: u64 = words[2].parse().unwrap_or(1);
    if threads == 0 {
        return Ok(());
    }
    let each = turns / u64::from(threads);
    let start = Instant::now(&rt)?;
    if words[0].as_str() == "lock" {
        by_lock(&rt, rt.alloc(), threads, each)?;
    } else {
        by_mutex(&rt, rt.alloc(), threads, each)?;
    }
    let spent: Duration = start.elapsed(&rt)?;
    println!(rt; "{}", spent.as_micros())?;
    Ok(())
}
"""

INVARIANT = """\
use Rattle.std.proofs.Common.{◌≡◌}
use Rattle.turns.proofs.take_turns.Given as goal

abbrev pub invariant-loop : goal.invariant-loop
invariant-loop g l = l.pass.lock ≡ l.fn.pass.lock
"""

ANSWERS = """\
use Rattle.std.proofs.Common.{◌≡◌, rules, ap, sym, subst, ◌∙◌, All}
use Rattle.turn_lock.proofs.Fresh.{fresh_own}
use Rattle.turns.proofs.by_lock.Goals as goal

pub for_each_mut-requires-clause-accepts : goal.for_each_mut-requires-clause-accepts
for_each_mut-requires-clause-accepts g c κs within i p small same =
    let lock = c.in_ok-lock.lock.lock in
    let own = fresh_own lock 0 c.args.threads c.in_ok-lock.passes.items c.in_ok-lock.ensures.passes in
    (ap (λ q. q.lock) same ∙ subst (All (λ q. q.lock ≡ lock)) (sym c.as_mut_slice.ensures.value) own i p.now small, search rules)
"""


def spent(folder, kind, threads, turns):
    words = [f"{folder}/crates/turns/out/turns", kind, str(threads), str(turns)]
    return int(subprocess.run(words, capture_output=True, text=True, check=True).stdout) / 1e6


def write(path, text):
    os.makedirs(os.path.dirname(path), exist_ok=True)
    with open(path, "w", encoding="utf-8") as file:
        file.write(text)


def main():
    turns = int(sys.argv[1]) if len(sys.argv) > 1 else 400000
    with tempfile.TemporaryDirectory() as folder:
        shutil.copytree("crates/turn_lock", f"{folder}/crates/turn_lock", ignore=shutil.ignore_patterns("out"))
        write(f"{folder}/crates/turns/src/main.rt", PROGRAM)
        write(f"{folder}/crates/turns/proofs/take_turns/Invariants.antt", INVARIANT)
        write(f"{folder}/crates/turns/proofs/by_lock/Answers.antt", ANSWERS)
        write(f"{folder}/crates.txt", "turn_lock: atomic_table\nturns: turn_lock\n")
        subprocess.run(["rt", "run", "--", "lock", "1", "1"], cwd=f"{folder}/crates/turns", check=True, stdout=sys.stderr)
        print("| Threads | Turns a second, TurnLock | Turns a second, Mutex |")
        print("|---|---|---|")
        for threads in (1, 2, 4, 8, 16):
            rates = [turns / min(spent(folder, kind, threads, turns) for _ in range(5)) for kind in ("lock", "mutex")]
            print(f"| {threads} | {rates[0]:,.0f} | {rates[1]:,.0f} |", flush=True)


main()
