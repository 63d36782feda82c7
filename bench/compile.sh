#!/bin/sh
# Times `./ffc compile` and `./ffc check` on form files, start-up included, and prints milliseconds, megabytes and, where a
# file is followed by one of half its cost, the growth from the one to the other. Run it at the top of the repository, once
# the program was built: sh bench/compile.sh [RUNS]
# Before each run it prints the load of the machine; above the number of its processors times say little.
set -e
[ -x crates/ffc/out/ffc ] || { echo "build the program first: ./ffc check examples/mass.ufl"; exit 1; }
work=$(mktemp -d)
trap 'rm -rf "$work"' EXIT
cat > "$work"/compile.py <<'EOP'
import os, resource, subprocess, sys, time
PROGRAM, WORK = os.path.abspath('crates/ffc/out/ffc'), sys.argv[1]
LAPLACE = 'V = FiniteElement("CG", {cell}, {degree})\nu = TrialFunction(V)\nv = TestFunction(V)\na = inner(grad(u), grad(v))*dx\n'
ELASTICITY = ('V = VectorElement("CG", {cell}, {degree})\nu = TrialFunction(V)\nv = TestFunction(V)\n'
              'a = (inner(sym(grad(u)), sym(grad(v))) + div(u)*div(v))*dx\n')
STOKES = ('W = VectorElement("CG", {cell}, 2) * FiniteElement("CG", {cell}, 1)\n(u, p) = TrialFunctions(W)\n(v, q) = TestFunctions(W)\n'
          'a = inner(grad(u), grad(v))*dx - div(v)*p*dx - q*div(u)*dx\n')
# the polynomial part of a neo-Hookean energy in the plane, and its second derivative
ENERGY = ('V = VectorElement("CG", triangle, {degree})\nw = Coefficient(V)\nu = TrialFunction(V)\nv = TestFunction(V)\nF = Identity(2) + grad(w)\n'
          'J = F[0, 0]*F[1, 1] - F[0, 1]*F[1, 0]\npsi = (inner(F, F) - 2 + 3*(J - 1)**2)/2\n'
          'R = derivative(psi*dx, w, v)\na = derivative(R, w, u)\nforms = [a]\n')
POWER = 'c1 = Constant(triangle)\nc2 = Constant(triangle)\nM = (c1 + c2)**{power}*dx\n'
# name, text, and whether the next file has half its cost
FILES = [
    ('mass, interval, degree 1', 'V = FiniteElement("CG", interval, 1)\nu = TrialFunction(V)\nv = TestFunction(V)\na = u*v*dx\n', False),
    ('Laplacian, triangle, degree 1', LAPLACE.format(cell='triangle', degree=1), False),
    ('Laplacian, tetrahedron, degree 1', LAPLACE.format(cell='tetrahedron', degree=1), False),
    ('Laplacian, tetrahedron, degree 3', LAPLACE.format(cell='tetrahedron', degree=3), False),
    ('elasticity, triangle, degree 2', ELASTICITY.format(cell='triangle', degree=2), False),
    ('elasticity, tetrahedron, degree 1', ELASTICITY.format(cell='tetrahedron', degree=1), False),
    ('Stokes, triangle', STOKES.format(cell='triangle'), False),
    ('second derivative of an energy, degree 1', ENERGY.format(degree=1), False),
    ('(c1 + c2)**20', POWER.format(power=20), True),
    ('(c1 + c2)**19', POWER.format(power=19), False),
]
def run(words):
    start = time.perf_counter()
    child = subprocess.Popen([PROGRAM, *words], stdout=subprocess.DEVNULL, stderr=subprocess.PIPE)
    said = child.stderr.read().decode().strip()
    _, status, used = os.wait4(child.pid, 0)
    return (time.perf_counter() - start) * 1e3, used.ru_maxrss / 1024, os.waitstatus_to_exitcode(status), said
before = None
rows = []
for number, (name, text, _) in enumerate(FILES):
    path = os.path.join(WORK, f'{number}.ufl')
    open(path, 'w').write(text)
    best = {}
    for command in ('compile', 'check'):
        taken = [run([command, path]) for _ in range(3)]
        best[command] = min(taken)
    rows.append(best)
for (name, _, doubles), best, after in zip(FILES, rows, rows[1:] + [None]):
    line = name
    for command in ('compile', 'check'):
        millis, memory, status, said = best[command]
        line += f', {command} {millis:.0f} ms {memory:.0f} MB' + ('' if status == 0 else f' ({said or status})')
    if doubles:
        line += f', compile {best["compile"][0] / after["compile"][0]:.2f} times that of half the cost'
    print(line)
EOP
for run in $(seq "${1:-1}"); do
    echo "run $run, load $(cut -d ' ' -f 1 /proc/loadavg) on $(nproc) processors"
    python3 "$work"/compile.py "$work"
done
