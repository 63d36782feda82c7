#!/bin/sh
# Times the reading of form files of 262,144 bytes beside Python's ast.parse of the same texts, and prints microseconds
# and their ratio: below 1 the reader is faster. Run it at the top of the repository: sh bench/read.sh [RUNS]
# Before each run it prints the load of the machine; above the number of its processors times say little.
# It works on a copy, since a program that only prints times is no part of the gate.
set -e
copy=$(mktemp -d)
trap 'rm -rf "$copy"' EXIT
mkdir "$copy"/crates
cp HANDLES "$copy"
for crate in slices ufl_syntax ufl_read; do
    cp -r crates/$crate "$copy"/crates
    grep "^$crate:" crates.txt >> "$copy"/crates.txt
done
cat > "$copy"/race.py <<'EOP'
import ast, sys, time
LIMIT = 262144
# A name, a beginning, so many units as there is room for, and an end.
TEXTS = [
    ('ordinary code', '', 'a = inner(grad(u), grad(v))*dx + f*v.dx(0)*ds(1)\n', ''),
    ('one sum', 'a = u', '+u', '\n'),
    ('one list', 'a = [', 'u,', ']\n'),
    ('brackets', '', 'a = ' + '(' * 60 + 'u' + ')' * 60 + '\n', ''),
    ('calls', 'a = u', '(u)', '\n'),
]
def whole(head, unit, tail):
    return head + unit * ((LIMIT - len(head) - len(tail)) // len(unit)) + tail
def python_time(text):
    best = None
    for _ in range(5):
        start = time.perf_counter()
        ast.parse(text)
        taken = (time.perf_counter() - start) * 1e6
        best = taken if best is None else min(best, taken)
    return best
if sys.argv[1] == 'texts':
    for number, text in enumerate(TEXTS):
        open(f'text{number}', 'w').write(whole(*text[1:]))
else:
    for line in open(sys.argv[2]):
        _, number, micros = line.split()
        name, text = TEXTS[int(number)][0], whole(*TEXTS[int(number)][1:])
        try:
            python = python_time(text)
            print(f'{name}: {micros} us, Python {python:.0f} us, ratio {int(micros) / python:.2f}')
        except (MemoryError, RecursionError, SyntaxError) as error:
            print(f'{name}: {micros} us, Python gives up ({type(error).__name__})')
EOP
cd "$copy"
rt new crates/read_race start_io > /dev/null
rm -rf crates/read_race/proofs crates/read_race/specs crates/read_race/stdin crates/read_race/stdout crates/read_race/out
rm -f crates/read_race/src/*
mkdir -p crates/read_race/proofs crates/read_race/specs
touch crates/read_race/proofs/Lib.antt crates/read_race/specs/Lib.antt
echo 'read_race: slices ufl_syntax ufl_read sqlite_items' >> crates.txt
cat > crates/read_race/src/main.rt <<'EOR'
//! Microseconds to read form files of the greatest length.
#![tactic(auto)]

use std::alloc::Global;
use std::fs;
use std::io;
use std::time::Instant;
use ufl_read::read_file;

// The least time of five, or none where the text is refused.
fn race(rt: &HostRuntime, text: &[u8]) -> io::Result<Option<u128>> {
    let mut best = None;
    for _ in 0..5 {
        let start = Instant::now(rt)?;
        let answer = read_file(rt.alloc(), text);
        let time = start.elapsed(rt)?.as_micros();
        if answer.is_err() {
            return Ok(None);
        }
        best = match best {
            Some(before) if before < time => Some(before),
            _ => Some(time),
        };
    }
    Ok(best)
}

fn main(rt: HostRuntime) -> io::Result<()> {
    for (number, name) in ["text0", "text1", "text2", "text3", "text4"].iter().enumerate() {
        let text = fs::read_to_string(&rt, name)?;
        match race(&rt, text.as_str().as_bytes())? {
            Some(time) => println!(rt; "race {number} {time}")?,
            None => println!(rt; "refused {number}")?,
        }
    }
    Ok(())
}
EOR
cd crates/read_race
python3 ../../race.py texts
rt run > run.log 2>&1 || { cat run.log; exit 1; }
for run in $(seq "${1:-1}"); do
    echo "run $run, load $(cut -d ' ' -f 1 /proc/loadavg) on $(nproc) processors"
    out/read_race > run.log
    grep '^refused' run.log || true
    grep '^race' run.log > rows
    python3 ../../race.py rows rows
done
