#!/bin/sh
# Times the reading and elaborating of form files of 262,144 bytes beside Python's ast.parse of the same texts, which
# only reads them, and prints microseconds and their ratio: below 1 the elaboration is faster. A text that is refused
# says so: its time is that up to the refusal. Run it at the top of the repository: sh bench/check.sh [RUNS]
# The text of sums of a large name copies its value again and again, and takes a minute or so.
# Before each run it prints the load of the machine; above the number of its processors times say little.
# It works on a copy, since a program that only prints times is no part of the gate.
set -e
copy=$(mktemp -d)
trap 'rm -rf "$copy"' EXIT
mkdir "$copy"/crates
cp HANDLES "$copy"
for crate in algebra ratio slices spaces ufl_syntax ufl_read ufl_tree ufl_expr ufl_form ufl_values ufl_calls ufl_elab; do
    tar cf - --exclude=incremental crates/$crate | tar xf - -C "$copy"
    grep "^$crate:" crates.txt >> "$copy"/crates.txt
done
cat > "$copy"/race.py <<'EOP'
import ast, itertools, sys, time
LIMIT = 262144
HEAD = ('V = FiniteElement("CG", triangle, 1)\nu = TrialFunction(V)\nv = TestFunction(V)\nf = Coefficient(V)\n'
        'c = Constant(triangle)\n')
def filled(head, units, tail):
    parts, room = [head], LIMIT - len(head) - len(tail)
    for unit in units:
        if len(unit) > room:
            break
        parts.append(unit)
        room -= len(unit)
    return ''.join(parts) + tail
def again(unit):
    return itertools.repeat(unit)
def elements():
    cells, families = ['interval', 'triangle', 'tetrahedron'], [('CG', 1), ('CG', 2), ('CG', 3), ('DG', 0), ('DG', 1)]
    kinds = itertools.product(range(1, 65), cells, families)
    for dim, cell, (family, degree) in itertools.cycle(kinds):
        yield f'g = Coefficient(VectorElement("{family}", {cell}, {degree}, dim={dim}))\n'
# 8,191 nodes, of a height of 13
LARGE = HEAD + 'x = u\n' + 'x = x + x\n' * 12
TEXTS = [
    ('ordinary code', filled(HEAD, again('a = inner(grad(u), grad(v))*dx + c*f*v*dx(1)\n'), '')),
    ('deep lists', filled('', again('a = ' + '[' * 60 + '1' + ']' * 60 + '\n'), '')),
    ('a small name', filled(HEAD + 'y = [', again('u,'), ']\n')),
    ('a large name', filled(LARGE + 'y = [', again('x,'), ']\n')),
    ('sums of a large name', filled(LARGE, again('y=+x\n'), '')),
    ('elements', filled('', elements(), '')),
]
def python_time(text):
    best = None
    for _ in range(5):
        start = time.perf_counter()
        ast.parse(text)
        taken = (time.perf_counter() - start) * 1e6
        best = taken if best is None else min(best, taken)
    return best
if sys.argv[1] == 'texts':
    for number, (_, text) in enumerate(TEXTS):
        open(f'text{number}', 'w').write(text)
else:
    for line in open(sys.argv[2]):
        answer, number, micros = line.split()
        name, text = TEXTS[int(number)]
        try:
            python = python_time(text)
            print(f'{name}: {answer} in {micros} us, Python {python:.0f} us, ratio {int(micros) / python:.2f}')
        except (MemoryError, RecursionError, SyntaxError) as error:
            print(f'{name}: {answer} in {micros} us, Python gives up ({type(error).__name__})')
EOP
cd "$copy"
rt new crates/check_race start_io > /dev/null
rm -rf crates/check_race/proofs crates/check_race/specs crates/check_race/stdin crates/check_race/stdout crates/check_race/out
rm -f crates/check_race/src/*
mkdir -p crates/check_race/proofs crates/check_race/specs
touch crates/check_race/proofs/Lib.antt crates/check_race/specs/Lib.antt
echo 'check_race: algebra ratio slices spaces sqlite_items indexmap ufl_syntax ufl_read ufl_tree ufl_expr ufl_form ufl_values ufl_calls ufl_elab' >> crates.txt
cat > crates/check_race/src/main.rt <<'EOR'
//! Microseconds to read and elaborate form files of the greatest length.
#![tactic(auto)]

use std::alloc::Global;
use std::fs;
use std::io;
use std::time::Instant;
use ufl_elab::elaborate;
use ufl_read::read_file;

// The text is read, and elaborated to forms.
fn is_taken(alloc: Global, text: &[u8]) -> bool {
    match read_file(alloc, text) {
        Ok(statements) => elaborate(alloc, text, statements.as_slice()).is_ok(),
        Err(_) => false,
    }
}

// The least time of three, or of one that is over a second, and whether the text is taken.
fn race(rt: &HostRuntime, text: &[u8]) -> io::Result<(bool, u128)> {
    let mut taken = false;
    let mut best = u128::MAX;
    for _ in 0..3 {
        let start = Instant::now(rt)?;
        taken = is_taken(rt.alloc(), text);
        let time = start.elapsed(rt)?.as_micros();
        best = best.min(time);
        if time > 1_000_000 {
            break;
        }
    }
    Ok((taken, best))
}

fn main(rt: HostRuntime) -> io::Result<()> {
    for (number, name) in ["text0", "text1", "text2", "text3", "text4", "text5"].iter().enumerate() {
        let text = fs::read_to_string(&rt, name)?;
        let (taken, time) = race(&rt, text.as_str().as_bytes())?;
        if taken {
            println!(rt; "taken {number} {time}")?;
        } else {
            println!(rt; "refused {number} {time}")?;
        }
    }
    Ok(())
}
EOR
cd crates/check_race
python3 ../../race.py texts
rt run > run.log 2>&1 || { cat run.log; exit 1; }
for run in $(seq "${1:-1}"); do
    echo "run $run, load $(cut -d ' ' -f 1 /proc/loadavg) on $(nproc) processors"
    out/check_race > run.log
    grep '^taken\|^refused' run.log > rows
    python3 ../../race.py rows rows
done
