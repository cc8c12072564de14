#!/usr/bin/env python3
"""How fast threads take turns at a history lock, beside std's Mutex, and what waiting costs.

  lock_speed.py

A copy of the lock's crates is made in a temporary folder, with a program beside them that takes turns with
an empty act, and `rt run` proves and builds it.

turns     two and eight threads take 200,000 turns each; several runs, lock and mutex in turn, by the
          clock, as turns a second and as a ratio, of the median run and of the best. In the best one
          the threads may have met least
waiting   16 threads wait for a turn that one thread holds for a second; the processor time of the whole
          run, as a part of one processor

It judges nothing: the status is 0, but 77 if `rt` is missing.
"""
import os
import resource
import shutil
import statistics
import subprocess
import sys
import tempfile

ROOT = os.path.dirname(os.path.dirname(os.path.abspath(__file__)))
RUNS = 7
THOUSANDS = 200
MUTEX, LOCK, HOLD = 0, 1, 2
CRATES = """hist_standing:
hist_lock may_wait=7: hist_standing atomic_table
lock_probe may_wait=4: hist_lock hist_standing
"""

MAIN = """//! Threads that take turns at a lock, or at a `Mutex`. Three bytes of input say what to do: 0 for the
//! mutex, 1 for the lock and 2 for a turn that is held for a second while others wait; how many threads;
//! and how many thousand turns each takes.
#![tactic(auto)]

ghost use Rattle.std.specs.Prelude.{◌≡◌, All, List, []};
ghost use Rattle.hist_lock.specs.Known.{IsPassOf};

use hist_lock::{Act, HistLock, Pass, Standing};
use std::alloc::Global;
use std::io::{self, Read};
use std::sync::{Mutex, Wait};
use std::thread::{self, Threads};
use std::time::{Clock, Duration, Instant};

#[derive(Drop)]
struct Count(u64);

impl Standing for Count {
    type Entry = u64;

    ghost stands = { λ _ _ _. Unit {0} };

    ghost number = { λ e. e };
}

/// An act that does nothing.
struct Nothing;

impl Act<Count> for Nothing {
    ghost may = { λ _ _ _. Unit {0} };

    ghost allows = { λ _ _ _ es. es ≡ [] };

    ghost adds = { λ _ _ _ _ _. [] };

    fn act(&mut self, _value: &mut Count, _caller: u64) {}
}

/// An act that takes a second.
struct Rest<'a, R: Clock> {
    rt: &'a R,
}

impl<R: Clock> Act<Count> for Rest<'_, R> {
    ghost may = { λ _ _ _. Unit {0} };

    ghost allows = { λ _ _ _ es. es ≡ [] };

    ghost adds = { λ _ _ _ _ _. [] };

    fn act(&mut self, _value: &mut Count, _caller: u64) {
        thread::sleep(self.rt, Duration::from_millis(1000));
    }
}

#[derive(Drop)]
struct Task {
    pass: Pass<Count>,
    turns: u64,
}

fn take_turns<R: Threads + Wait + Sync>(rt: &R, lock: &HistLock<Count>, task: &mut Task)
    requires { IsPassOf lock.now.table.shared.table_id task.old.pass.seat }
    ensures { IsPassOf lock.now.table.shared.table_id task.new.pass.seat }
{
    for _ in 0..task.turns {
        let mut act = Nothing;
        lock.turn(rt, &mut task.pass, &mut act);
        let Nothing = act;
    }
}

fn hold_or_wait<R: Threads + Wait + Clock + Sync>(rt: &R, lock: &HistLock<Count>, place: usize, task: &mut Task)
    requires { IsPassOf lock.now.table.shared.table_id task.old.pass.seat }
{
    if place == 0 {
        let mut act = Rest { rt };
        lock.turn(rt, &mut task.pass, &mut act);
        let Rest { rt: _ } = act;
    } else {
        thread::sleep(rt, Duration::from_millis(100));
        let mut act = Nothing;
        lock.turn(rt, &mut task.pass, &mut act);
        let Nothing = act;
    }
}

fn lock_turns<R: Threads + Wait + Clock + Sync>(rt: &R, alloc: Global, hold: bool, threads: usize, turns: u64) -> bool {
    let Ok((lock, mut pass)) = HistLock::new(alloc, Count(0)) else {
        return false;
    };
    let mut tasks = Vec::new(alloc);
    for _ in 0..threads {
        if tasks.reserve(1).is_err() {
            return false;
        }
        let task = Task {
            pass: lock.split(rt, &mut pass),
            turns,
        };
        tasks.push_reserved(task);
    }
    if hold {
        thread::for_each_mut(rt, tasks.as_mut_slice(), 32, &|place, task: &mut Task|
            requires { IsPassOf lock.table.shared.table_id task.old.pass.seat }
        { hold_or_wait(rt, &lock, place, task) });
    } else {
        thread::for_each_mut(rt, tasks.as_mut_slice(), 32, &|_, task: &mut Task|
            requires { IsPassOf lock.table.shared.table_id task.old.pass.seat }
        { take_turns(rt, &lock, task) });
    }
    true
}

fn lock_mutex<R: Threads + Wait + Sync>(rt: &R, mutex: &Mutex<Count>, turns: u64) {
    for _ in 0..turns {
        let mut guard = mutex.lock(rt);
        let mut act = Nothing;
        act.act(&mut guard, 0);
        let Nothing = act;
    }
}

fn mutex_turns<R: Threads + Wait + Sync>(rt: &R, alloc: Global, threads: usize, turns: u64) -> bool {
    let mutex = Mutex::new(Count(0));
    let mut tasks = Vec::new(alloc);
    for _ in 0..threads {
        if tasks.push(turns).is_err() {
            return false;
        }
    }
    thread::for_each_mut(rt, tasks.as_mut_slice(), 32, &|_, turns: &mut u64| lock_mutex(rt, &mutex, *turns));
    true
}

fn main(rt: HostRuntime) -> io::Result<()> {
    let mut order = [0u8; 3];
    rt.reader().read_exact(&mut order)?;
    let [kind, threads, thousands] = order;
    let start = Instant::now(&rt)?;
    let turns = u64::from(thousands).wrapping_mul(1000);
    let done = if kind == 0 {
        mutex_turns(&rt, rt.alloc(), usize::from(threads), turns)
    } else {
        lock_turns(&rt, rt.alloc(), kind == 2, usize::from(threads), turns)
    };
    let took = start.elapsed(&rt)?;
    println!(rt; "{done} {} {}", took.as_secs(), took.subsec_nanos())
}
"""

TAKE_TURNS = """use Rattle.hist_lock.specs.Known.{IsPassOf}
use Rattle.lock_probe.proofs.take_turns.Given as goal

abbrev pub invariant-loop : goal.invariant-loop
invariant-loop g l = IsPassOf l.lock.table.shared.table_id l.task.pass.seat
"""

LOCK_TURNS = """use Rattle.std.proofs.Common.{All}
use Rattle.hist_lock.specs.Known.{IsPassOf}
use Rattle.lock_probe.proofs.lock_turns.Given as goal

abbrev pub invariant-loop : goal.invariant-loop
invariant-loop g l = IsPassOf l.lock.table.shared.table_id l.pass.seat × All (λ t. IsPassOf l.lock.table.shared.table_id t.pass.seat) l.tasks.items
"""


def build(folder):
    """The program, built from a copy of the lock's crates."""
    for name in ("hist_standing", "hist_lock"):
        shutil.copytree(
            os.path.join(ROOT, "crates", name),
            os.path.join(folder, "crates", name),
            ignore=shutil.ignore_patterns("out", "must-fail"),
        )
    files = {
        "HANDLES": "Handles allowed: Threads, Wait.\n",
        "crates.txt": CRATES,
        "crates/lock_probe/src/main.rt": MAIN,
        "crates/lock_probe/proofs/take_turns/Invariants.antt": TAKE_TURNS,
        "crates/lock_probe/proofs/lock_turns/Invariants.antt": LOCK_TURNS,
    }
    for name, text in files.items():
        path = os.path.join(folder, name)
        os.makedirs(os.path.dirname(path), exist_ok=True)
        with open(path, "w", encoding="utf-8") as file:
            file.write(text)
    probe = os.path.join(folder, "crates", "lock_probe")
    built = subprocess.run(["rt", "run"], cwd=probe, capture_output=True, input=b"\0\1\1")
    program = os.path.join(probe, "out", "lock_probe")
    if not os.path.exists(program):
        sys.exit("the program was not built:\n" + built.stdout.decode() + built.stderr.decode())
    return program


def seconds(program, kind, threads, thousands):
    """How long one run takes by the clock."""
    order = bytes([kind, threads, thousands])
    words = subprocess.run([program], input=order, capture_output=True, check=True).stdout.split()
    assert words[0] == b"true"
    return int(words[1]) + int(words[2]) / 1e9


def processor(program, threads):
    """The processor time of a run in which threads wait for one that holds its turn."""
    before = resource.getrusage(resource.RUSAGE_CHILDREN)
    took = seconds(program, HOLD, threads + 1, 0)
    after = resource.getrusage(resource.RUSAGE_CHILDREN)
    used = after.ru_utime + after.ru_stime - before.ru_utime - before.ru_stime
    return used / took


def main():
    """Prints one line for each measure."""
    if shutil.which("rt") is None:
        print("rt is missing")
        return 77
    with tempfile.TemporaryDirectory() as folder:
        program = build(folder)
        for threads in (2, 8):
            runs = [[seconds(program, kind, threads, THOUSANDS) for kind in (LOCK, MUTEX)] for _ in range(RUNS)]
            for name, choose in (("median", statistics.median), ("best", min)):
                lock, mutex = (threads * THOUSANDS * 1000 / choose(column) for column in zip(*runs))
                rates = f"{lock:,.0f} turns a second, Mutex {mutex:,.0f}, ratio {lock / mutex:.2f}"
                print(f"{threads} threads, {name}: {rates}")
        part = min(processor(program, 16) for _ in range(3))
        print(f"16 threads wait for a second: {100 * part:.2f} % of one processor")
    return 0


if __name__ == "__main__":
    sys.exit(main())
