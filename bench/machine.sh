#!/bin/sh
# Times the machine on a straight-line kernel and on a loop kernel over many cells, beside the same steps called directly,
# on random fractions in lowest terms of 8 to 62 bits, and prints nanoseconds a statement and the ratio to the direct call.
# It fails where a run fails. Run it at the top of the repository: sh bench/machine.sh
# It works on a copy, since a program that only prints times is no part of the gate.
set -e
copy=$(mktemp -d)
trap 'rm -rf "$copy"' EXIT
mkdir "$copy"/crates
cp HANDLES "$copy"
for crate in algebra ratio c_unit c_run; do
    cp -r crates/$crate "$copy"/crates
    grep "^$crate:" crates.txt >> "$copy"/crates.txt
done
cd "$copy"
rt new crates/machine_race start_io > /dev/null
rm -rf crates/machine_race/proofs crates/machine_race/specs crates/machine_race/stdin crates/machine_race/stdout crates/machine_race/out
rm -f crates/machine_race/src/*
mkdir -p crates/machine_race/proofs crates/machine_race/specs
touch crates/machine_race/proofs/Lib.antt crates/machine_race/specs/Lib.antt
echo 'machine_race: algebra ratio sqlite_items c_unit c_run' >> crates.txt
cat > crates/machine_race/src/main.rt <<'EOR'
//! Nanoseconds a statement.
#![tactic(auto)]

use c_run::{Machine, Ret};
use c_unit::{Array, CFun, CStmt, Place, Slot};
use ratio::Ratio;
use sqlite_items::Items;
use std::alloc::{AllocError, Global};
use std::io;
use std::time::Instant;

fn place(array: Array, base: u32, step: u32) -> Place {
    Place {
        array,
        slot: Slot {
            base,
            steps: [0, step, 0, 0],
        },
    }
}

fn function(alloc: Global, body: Items<CStmt>) -> CFun {
    CFun {
        name: Items::new(alloc),
        x: 64,
        w: 64,
        t: 64,
        a: 1,
        tables: Items::new(alloc),
        body,
    }
}

fn statement(copies: bool, k: u32, step: u32) -> CStmt {
    if copies {
        CStmt::Copy {
            to: place(Array::T, k, step),
            arg: place(Array::X, k, step),
        }
    } else {
        CStmt::Mul {
            to: place(Array::T, k, step),
            left: place(Array::X, k, step),
            right: place(Array::W, k, step),
        }
    }
}

// 64 statements, each with slots of its own.
fn straight(alloc: Global, copies: bool) -> Result<CFun, AllocError> {
    let mut body = Items::new(alloc);
    for k in 0..64u32 {
        body.push(statement(copies, k, 0))?;
    }
    Ok(function(alloc, body))
}

// 64 turns of one statement, in two loops.
fn looped(alloc: Global, copies: bool) -> Result<CFun, AllocError> {
    let mut one = Items::new(alloc);
    one.push(statement(copies, 0, 1))?;
    let mut two = Items::new(alloc);
    two.push(CStmt::For {
        turns: 64,
        body: one,
    })?;
    let mut body = Items::new(alloc);
    body.push(CStmt::For {
        turns: 1,
        body: two,
    })?;
    Ok(function(alloc, body))
}

// A generator of Marsaglia's: xorshift with shifts by 13, 7 and 17.
fn next(state: u64) -> u64 {
    let first = state ^ (state << 13);
    let second = first ^ (first >> 7);
    second ^ (second << 17)
}

fn signed(n: u64) -> i128 {
    n as i128
}

// The last `bits` bits of the state, of which the first is set.
fn part(state: u64, bits: u32) -> i128 {
    if bits == 0 || bits > 62 {
        return 1;
    }
    let top = 1u64 << (bits - 1);
    signed((state & (top - 1)) | top)
}

// 64 random fractions whose numerators and denominators in lowest terms have this many bits.
fn random_fractions(alloc: Global, bits: u32, seed: u64) -> Result<Vec<Ratio>, AllocError> {
    let mut all = Vec::new(alloc);
    let mut state = seed;
    for _ in 0..100000u32 {
        if all.len() >= 64 {
            return Ok(all);
        }
        state = next(state);
        let n = part(state, bits);
        state = next(state);
        let d = part(state, bits);
        if let Some(r) = Ratio::new(n, d) {
            if r.num() == n && r.den() == d {
                all.push(r)?;
            }
        }
    }
    Ok(all)
}

fn products(x: &[Ratio], w: &[Ratio], t: &mut [Ratio], cells: u32) {
    for _ in 0..cells {
        for k in 0..64usize {
            if let Some(a) = x.get(k) {
                if let Some(b) = w.get(k) {
                    if let Some(r) = a.mul(*b) {
                        if k < t.len() {
                            t[k] = r;
                        }
                    }
                }
            }
        }
    }
}

// Nanoseconds for all cells; nothing where a run failed.
fn all_cells(
    rt: &HostRuntime,
    f: &CFun,
    x: &[Ratio],
    w: &[Ratio],
    cells: u32,
) -> io::Result<Option<u128>> {
    let mut m = Machine::new(rt.alloc(), f)?;
    let zero = Ratio::zero();
    let mut a = vec![in rt.alloc(); zero; f.a as usize]?;
    let start = Instant::now(rt)?;
    let mut good = 0u32;
    for _ in 0..cells {
        if let Ret::Good = m.run(x, w, a.as_mut_slice()) {
            good = good.wrapping_add(1);
        }
    }
    let ns = start.elapsed(rt)?.as_nanos();
    Ok(if good == cells { Some(ns) } else { None })
}

// The best of five times; nothing where a run failed.
fn best_of(
    rt: &HostRuntime,
    f: &CFun,
    x: &[Ratio],
    w: &[Ratio],
    cells: u32,
) -> io::Result<Option<u128>> {
    let mut best = u128::MAX;
    for _ in 0..5u32 {
        match all_cells(rt, f, x, w, cells)? {
            Some(ns) => best = best.min(ns),
            None => return Ok(None),
        }
    }
    Ok(Some(best))
}

fn direct(rt: &HostRuntime, x: &[Ratio], w: &[Ratio], cells: u32) -> io::Result<u128> {
    let mut t = vec![in rt.alloc(); Ratio::zero(); 64]?;
    let mut best = u128::MAX;
    for _ in 0..5u32 {
        let start = Instant::now(rt)?;
        products(x, w, t.as_mut_slice(), cells);
        best = best.min(start.elapsed(rt)?.as_nanos());
    }
    Ok(best)
}

fn report(
    rt: &HostRuntime,
    what: &str,
    best: Option<u128>,
    direct: u128,
    cells: u32,
) -> io::Result<()> {
    let statements = cells as u128 * 64 + 1;
    match best {
        None => println!(rt; "  {what}: a run failed"),
        Some(ns) => {
            let each = ns.wrapping_mul(10) / statements;
            let percent = ns.wrapping_mul(100) / direct.max(1);
            println!(rt; "  {what}: {each} tenths of ns a statement, {percent} percent of the direct call")
        }
    }
}

fn race(rt: &HostRuntime, bits: u32, cells: u32) -> io::Result<()> {
    let x = random_fractions(rt.alloc(), bits, 0x9e37_79b9_7f4a_7c15)?;
    let w = random_fractions(rt.alloc(), bits, 0xd1b5_4a32_d192_ed03)?;
    let (x, w) = (x.as_slice(), w.as_slice());
    let called = direct(rt, x, w, cells)?;
    let each = called.wrapping_mul(10) / (cells as u128 * 64 + 1);
    println!(rt; "{bits} bits, direct call: {each} tenths of ns a statement")?;
    let product = straight(rt.alloc(), false)?;
    report(rt, "product, straight", best_of(rt, &product, x, w, cells)?, called, cells)?;
    let product = looped(rt.alloc(), false)?;
    report(rt, "product, loop", best_of(rt, &product, x, w, cells)?, called, cells)?;
    let copy = straight(rt.alloc(), true)?;
    report(rt, "copy, straight", best_of(rt, &copy, x, w, cells)?, called, cells)?;
    let copy = looped(rt.alloc(), true)?;
    report(rt, "copy, loop", best_of(rt, &copy, x, w, cells)?, called, cells)
}

fn main(rt: HostRuntime) -> io::Result<()> {
    race(&rt, 8, 10000)?;
    race(&rt, 16, 10000)?;
    race(&rt, 31, 5000)?;
    race(&rt, 48, 5000)?;
    race(&rt, 62, 5000)
}
EOR
mkdir crates/machine_race/proofs/all_cells
cat > crates/machine_race/proofs/all_cells/Invariants.antt <<'EOR'
use Rattle.std.proofs.Common.{◌≡◌, length}
use Rattle.machine_race.proofs.all_cells.Given as goal

abbrev pub invariant-loop : goal.invariant-loop
invariant-loop l = length l.a.items ≡ l.m.a
EOR
cd crates/machine_race
rt run > run.log 2>&1 || { cat run.log; exit 1; }
grep -E 'a statement|a run failed' run.log
! grep -q 'a run failed' run.log
