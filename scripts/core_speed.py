#!/usr/bin/env python3
"""How fast the core of a volume takes a write, beside the copies alone.

  core_speed.py

No program of the repository uses the core. So a copy of its crates is made in a temporary folder, with
a program beside them that admits, deposits and closes writes of 4 KiB over a store in memory, with a
cipher that does nothing, and `rt run` proves and builds it. What is deposited was handed in enciphered,
so each write is copied once, into the store.

core      a write of 4 KiB made, admitted, deposited and closed, in nanoseconds of processor time
copies    the same bytes copied to the same places of the same store, as often: the baseline

The best of several runs counts, core and copies in turn. The status is 0 if the core takes at most 2
microseconds, 1 if it takes longer, and 77 if `rt` is missing.
"""
import resource
import shutil
import subprocess
import sys
import tempfile

from probe import build

RUNS = 7
COPIES, CORE = 0, 1
ROUNDS = 200_000
MOST = 2000

MAIN = """//! Writes of 4 KiB through a core, or copied into its store. One byte of input says which: 0 or 1.
#![tactic(auto)]

ghost use Rattle.std.specs.Prelude.{◌≡◌, ◌%◌, Any, length, refl};
ghost use Rattle.sector_model.specs.History.{HasName};
ghost use Rattle.io_core.specs.State.{write_of};

use cipher_base::UnitCipher;
use io_core::{Admit, Close, Core, Deposit, Prepared};
use std::alloc::Global;
use std::io::{self, Read};
use vc_layout::Geometry;
use vc_outside::{Store, SureStore};

#[derive(Clone, Copy)]
struct Same;

impl UnitCipher for Same {
    ghost enciphered = { λ _ _ u. u };

    ghost deciphered = { λ _ _ u. u };

    fn encipher_units(&self, first: u64, units: &mut [u8]) {
        let _ = first;
        let _ = units;
    }

    fn decipher_units(&self, first: u64, units: &mut [u8]) {
        let _ = first;
        let _ = units;
    }

    ghost enciphered_is_unit = { λ _ _ _ _ bytes. bytes };

    ghost deciphered_is_unit = { λ _ _ _ _ bytes. bytes };

    ghost deciphers = { λ _ _ _ _ _. refl };

    ghost enciphers = { λ _ _ _ _ _. refl };
}

fn hand_in(core: &mut Core<SureStore, Same>, unit: u64, handed: &[u8]) -> Deposit
    requires { length handed.now % 512 ≡ 0 }
    ensures { Any (λ p. HasName 1 0 (write_of p)) core.old.pending → Any (λ p. HasName 1 0 (write_of p)) core.new.pending }
{
    core.deposit(1, 0, 0, unit, handed, handed)
}

// One write of eight sectors. Its data comes back.
fn write_once(core: &mut Core<SureStore, Same>, alloc: Global, first: u64, data: &[u8], bytes: Vec<u8>) -> Option<Vec<u8>> {
    if core.pending() != 0 || core.geometry().sector != 512 || bytes.len() != 4096 || data.len() != 4096 {
        return None;
    }
    if first > 1 << 40 || !core.fits(first, 8) {
        return None;
    }
    let Ok(write) = Prepared::new(alloc, 1, 0, first, bytes) else {
        return None;
    };
    let Admit::In = core.admit_write(write) else {
        return None;
    };
    let Deposit::Stored = hand_in(core, 2 + first, data) else {
        return None;
    };
    if let Close::Done(bytes) = core.close_write(1, 0) {
        return Some(bytes);
    }
    None
}

fn core_rounds(alloc: Global, disk: SureStore, data: &[u8], bytes: Vec<u8>, rounds: u64) -> Option<u8> {
    if disk.len() != 1_049_600 {
        return None;
    }
    let geometry = Geometry {
        start: 1024,
        sectors: 2048,
        sector: 512,
    };
    let Ok(mut core) = Core::new(alloc, disk, geometry, Same, None, 16) else {
        return None;
    };
    let mut bytes = bytes;
    for i in 0..rounds {
        bytes = write_once(&mut core, alloc, 8 * (i % 256), data, bytes)?;
    }
    bytes.first().copied()
}

fn copy_rounds(disk: SureStore, data: &[u8], rounds: u64) -> Option<u8> {
    let mut disk = disk;
    for i in 0..rounds {
        let at = 1024 + 4096 * (i % 256);
        if at + data.len() as u64 > disk.len() || disk.write_at(at, data).is_err() {
            return None;
        }
    }
    disk.bytes().get(1024).copied()
}

fn run(alloc: Global, kind: u8, rounds: u64) -> Option<u8> {
    let zeros = vec![in alloc; 0u8; 1_049_600].ok()?;
    let data = vec![in alloc; 9u8; 4096].ok()?;
    let bytes = vec![in alloc; 9u8; 4096].ok()?;
    let disk = SureStore::new(zeros);
    if kind == 0 {
        return copy_rounds(disk, &data, rounds);
    }
    core_rounds(alloc, disk, &data, bytes, rounds)
}

fn main(rt: HostRuntime) -> io::Result<()> {
    let mut order = [0u8; 2];
    rt.reader().read_exact(&mut order)?;
    let [kind, thousands] = order;
    match run(rt.alloc(), kind, u64::from(thousands).saturating_mul(1000)) {
        Some(byte) => println!(rt; "{byte}"),
        None => println!(rt; "failed"),
    }
}
"""

HAND_IN = """use Rattle.std.proofs.Common.{◌≡◌, ◌/◌, ◌∷◌, List, length, refl, sym, subst, arith, lit<}
use Rattle.std.specs.List.{Any, Contains}
use Rattle.vc_base.proofs.Pieces.{in_pieces_identity}
use Rattle.sector_model.specs.History.{HasName, Write}
use Rattle.sector_model.specs.declared.entry.FaultMark.{FaultMark}
use Rattle.io_core.specs.Deposits.{IsDeposited}
use Rattle.io_core.specs.State.{write_of}
use Rattle.io_core.specs.declared.answers.Deposit.{Deposit}
use Rattle.io_core.specs.declared.answers.Deposit.TheVariants as deposit
use Rattle.io_core.specs.declared.prepared.Prepared.{Prepared}
use Rattle.io_core.proofs.Elements.{element_right, first_element}
use Rattle.core_probe.proofs.hand_in.Goals as goal

pub deposit-requires : goal.deposit-requires
deposit-requires c =
    record { sealed = sym (in_pieces_identity 512 (length c.args.handed.now / 512) c.args.handed.now (lit< tt) (omega (arith, c.requires))) }

-- the write is pending after a deposit
still_there : (index : _) (x : _) (old new : List Prepared) → IsDeposited 1 0 index x old new → Any (λ p. HasName 1 0 (write_of p)) new
still_there index x old new d =
    let c : Contains new d.after = subst (λ l. Contains l d.after) (sym d.now) (element_right d.below (d.after ∷ d.above) d.after (first_element d.after d.above)) in
    (c.0, d.after, c.1, c.2, subst (λ (w : Write). HasName 1 0 w) (sym d.same) d.name)

by_answer : (r : Deposit) (A B : Type 0) → (r ≡ deposit.Stray → A → B) → (r ≡ deposit.Stored → B) → ((m : FaultMark) → r ≡ deposit.Spoilt m → B) → A → B
by_answer deposit.Stored A B stray stored spoilt a = stored refl
by_answer (deposit.Spoilt m) A B stray stored spoilt a = spoilt m refl
by_answer deposit.Stray A B stray stored spoilt a = stray refl a

pub returns : goal.returns
returns c =
    by_answer c.deposit.result _ _
    (λ is any. subst (λ s. Any (λ p. HasName 1 0 (write_of p)) s.pending) (sym (c.deposit.ensures.stray_changes_nothing is)) any)
    (λ is. still_there _ _ _ _ (c.deposit.ensures.stored is))
    (λ m is. still_there _ _ _ _ (c.deposit.ensures.spoilt m is).0)
"""

SAME_UNITS = """use Rattle.std.proofs.Common.{◌/◌, length, sym, arith, lit<}
use Rattle.vc_base.proofs.Pieces.{in_pieces_identity}
use Rattle.core_probe.proofs.SameUnitCipher.DIRECTION.Goals as goal

pub returns : goal.returns
returns c = sym (in_pieces_identity 512 (length c.args.units.now / 512) c.args.units.now (lit< tt) (omega (arith, c.requires.whole)))
"""

WRITE_ONCE = """use Rattle.std.proofs.Common.{◌∷◌, [], refl, sym, subst}
use Rattle.std.specs.List.{Contains}
use Rattle.io_core.specs.declared.prepared.Prepared.{Prepared}
use Rattle.io_core.proofs.Elements.{element_right, first_element}
use Rattle.core_probe.proofs.write_once.Goals as goal

pub close_write-requires : goal.close_write-requires
close_write-requires c =
    let w : Prepared = c.in-Ok.write in
    let e = c.in-Ok.ensures in
    let has : Contains c.admit_write.new.self.pending w
    = subst (λ l. Contains l w) (sym (c.in-In.ensures.admitted refl)) (element_right _ (w ∷ []) w (first_element w [])) in
    record { pending = c.hand_in.ensures (has.0, w, has.1, has.2, (e.0, e.1)) }
"""

PROOFS = {
    "hand_in/Answers.antt": HAND_IN,
    "write_once/Answers.antt": WRITE_ONCE,
    "SameUnitCipher/encipher_units/Answers.antt": SAME_UNITS.replace("DIRECTION", "encipher_units"),
    "SameUnitCipher/decipher_units/Answers.antt": SAME_UNITS.replace("DIRECTION", "decipher_units"),
}


def seconds(program, kind):
    """The processor time of one run, less that of a run of no rounds."""
    def taken(thousands):
        before = resource.getrusage(resource.RUSAGE_CHILDREN)
        told = subprocess.run([program], input=bytes([kind, thousands]), capture_output=True, check=True).stdout
        after = resource.getrusage(resource.RUSAGE_CHILDREN)
        assert told.strip() != b"failed"
        return after.ru_utime + after.ru_stime - before.ru_utime - before.ru_stime

    return taken(ROUNDS // 1000) - taken(0)


def main():
    """Prints both figures."""
    if shutil.which("rt") is None:
        print("rt is missing")
        return 77
    with tempfile.TemporaryDirectory() as folder:
        needed = ["io_core", "sector_model", "cipher_base", "vc_base", "vc_layout", "vc_outside"]
        program = build(folder, needed, "core_probe", MAIN, PROOFS)
        runs = [[seconds(program, kind) for kind in (CORE, COPIES)] for _ in range(RUNS)]
    core, copies = (1e9 * min(column) / ROUNDS for column in zip(*runs))
    print(f"core: {core:,.0f} ns a write of 4 KiB, the copy alone {copies:,.0f} ns, ratio {core / copies:.1f}")
    return 0 if core <= MOST else 1


if __name__ == "__main__":
    sys.exit(main())
