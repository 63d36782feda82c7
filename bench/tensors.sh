#!/bin/sh
# Times the reference tensors of inner(grad(u), grad(v)) for scalar Lagrange elements of degree 3 on tetrahedra, one for each
# direction of space: prints the best of twenty times, in microseconds. It fails where an item isn't the expected one.
# Run it at the top of the repository: sh bench/tensors.sh
# It works on a copy, since a program that only prints times is no part of the gate.
set -e
copy=$(mktemp -d)
trap 'rm -rf "$copy"' EXIT
mkdir "$copy"/crates
cp HANDLES "$copy"
for crate in algebra ratio calculus spaces polyalg lagrange ufl_tree monos ufl_meaning weigh refint room \
    basis_products monomial_products monomial_items monomial_weights tensors; do
    cp -r crates/$crate "$copy"/crates
    grep "^$crate:" crates.txt >> "$copy"/crates.txt
done
cd "$copy"
rt new crates/tensors_race start_io > /dev/null
rm -rf crates/tensors_race/proofs crates/tensors_race/specs crates/tensors_race/stdin crates/tensors_race/stdout crates/tensors_race/out
rm -f crates/tensors_race/src/*
mkdir -p crates/tensors_race/proofs/form_tensor crates/tensors_race/specs
echo 'pub mod FormLaws' > crates/tensors_race/proofs/Lib.antt
echo 'pub mod Form' > crates/tensors_race/specs/Lib.antt
echo 'tensors_race: algebra calculus ratio sqlite_items spaces polyalg lagrange ufl_tree monos ufl_meaning weigh refint room' \
    'basis_products monomial_products monomial_items monomial_weights tensors' >> crates.txt
cat > crates/tensors_race/specs/Form.antt <<'EOA'
-- The Laplacian of degree 3 on tetrahedra: its layout, its weight, and its monomial for each direction
use Rattle.std.specs.Prelude.{ℕ, ◌==◌, if◌then◌else◌, [], ◌∷◌, None}
use Rattle.algebra.specs.Fraction.{one_fraction}
use Rattle.spaces.specs.declared.cell.Cell.TheVariants.{Tetrahedron}
use Rattle.spaces.specs.declared.family.Family.TheVariants.{Lagrange}
use Rattle.spaces.specs.declared.parts.Parts.{Parts}
use Rattle.spaces.specs.Scalar.{laid_out}
use Rattle.spaces.specs.Space.{scalar, scalars}
use Rattle.ufl_tree.specs.declared.function.Role.{Role}
use Rattle.ufl_tree.specs.declared.function.Role.TheVariants.{Test, Trial}
use Rattle.monos.specs.declared.layout.Layout.{Layout}
use Rattle.monos.specs.declared.mono.Atom.{Atom}
use Rattle.monos.specs.declared.weight.Weight.{Weight}
use Rattle.monos.specs.Monomial.{Monomial}

abbrev pub cubic : Parts
cubic = laid_out (scalars (scalar Lagrange Tetrahedron 3))

abbrev pub form_layout : Layout
form_layout = record { d = 3; rows = cubic; cols = cubic; coefs = []; position = None }

abbrev pub form_weight : Weight
form_weight = record { cost = 10800; deg = 4; g = 2; f = 2; rmin = 2; rmax = 2; num = 9; den = 1; fac = 36; s = 107495424 }

abbrev pub count_in : ℕ → ℕ → ℕ
count_in direction k = if direction == k then 1 else 0

abbrev pub derivative : Role → ℕ → Atom
derivative r k = record { f = record { role = r; element = 0 }; component = 0; dirs = count_in k 0 ∷ count_in k 1 ∷ count_in k 2 ∷ [] }

abbrev pub form_monomial : ℕ → Monomial
form_monomial k = record { c = one_fraction; atoms = derivative Test k ∷ derivative Trial k ∷ [] }
EOA
cat > crates/tensors_race/proofs/FormLaws.antt <<'EOA'
-- The premises of the Laplacian's tensors
use Rattle.std.proofs.Common.{ℕ, zero, suc, ◌<◌, inl, refl, lit≤, lit<, arith}
use native.Mathlib.Nat as N
use Rattle.algebra.specs.Fraction.{one_fraction}
use Rattle.algebra.specs.Gcd.{gcd}
use Rattle.algebra.specs.LowestTerms.{top, bottom}
use Rattle.spaces.specs.declared.cell.Cell.TheVariants.{Tetrahedron}
use Rattle.spaces.specs.declared.family.Family.TheVariants.{Lagrange}
use Rattle.spaces.specs.Space.{scalar}
use Rattle.monos.specs.Layout.{IsLawfulLayout, MayBeOn}
use Rattle.weigh.specs.Admitted.{IsAdmitted}
use Rattle.monomial_weights.specs.Weighed.{IsWithin}
use Rattle.tensors_race.specs.Form.{cubic, form_layout, form_weight, form_monomial}

on_tetrahedron : MayBeOn Tetrahedron cubic
on_tetrahedron = inl (record { element = scalar Lagrange Tetrahedron 3; lawful = refl; cell = refl; parts = refl })

pub lawful : IsLawfulLayout form_layout
lawful = (Tetrahedron, record {
  dimension = refl;
  rows = on_tetrahedron;
  cols = on_tetrahedron;
  coefs = tt;
  rising = tt;
  in_order = tt;
  few = lit≤ tt;
  position = tt;
})

pub admitted : IsAdmitted 3 form_weight
admitted = record {
  cost = lit≤ tt;
  factors = lit≤ tt;
  size = lit< tt;
  one_cost = lit< tt;
  one_den = lit< tt;
  one_fac = lit< tt;
  one_s = lit< tt;
  parts = lit≤ tt;
  functions = lit≤ tt;
  derivatives = lit≤ tt;
}

pub within : (k : ℕ) → k < 3 → IsWithin form_layout form_weight (form_monomial k)
unfolding gcd top bottom one_fraction
within zero h = record {
  weighed = record { over = (N.dvd_refl 1, tt); sum = lit≤ tt; total = lit≤ tt };
  functions = lit≤ tt;
  least = lit≤ tt;
  greatest = lit≤ tt;
  degrees = lit≤ tt;
  fac = N.dvd_refl 36;
  s = lit≤ tt;
}
within (suc zero) h = record {
  weighed = record { over = (N.dvd_refl 1, tt); sum = lit≤ tt; total = lit≤ tt };
  functions = lit≤ tt;
  least = lit≤ tt;
  greatest = lit≤ tt;
  degrees = lit≤ tt;
  fac = N.dvd_refl 36;
  s = lit≤ tt;
}
within (suc (suc zero)) h = record {
  weighed = record { over = (N.dvd_refl 1, tt); sum = lit≤ tt; total = lit≤ tt };
  functions = lit≤ tt;
  least = lit≤ tt;
  greatest = lit≤ tt;
  degrees = lit≤ tt;
  fac = N.dvd_refl 36;
  s = lit≤ tt;
}
within (suc (suc (suc k))) h = absurd (omega arith)
EOA
cat > crates/tensors_race/proofs/form_tensor/Answers.antt <<'EOA'
use Rattle.std.proofs.Common.{sym, subst}
use Rattle.monos.specs.Layout.{IsLawfulLayout}
use Rattle.monos.specs.Monomial.{monomial_of}
use Rattle.weigh.specs.Admitted.{IsAdmitted}
use Rattle.monomial_weights.specs.Weighed.{IsWithin}
use Rattle.tensors_race.specs.Form.{form_layout, form_weight}
use Rattle.tensors_race.proofs.FormLaws.{lawful, admitted, within}
use Rattle.tensors_race.proofs.form_tensor.Goals as goal

pub tensor-requires-clause-layout : goal.tensor-requires-clause-layout
tensor-requires-clause-layout c = subst IsLawfulLayout (sym c.in_ok-l.ensures) lawful

pub tensor-requires-clause-admitted : goal.tensor-requires-clause-admitted
tensor-requires-clause-admitted c =
    subst (λ l. IsAdmitted l.d c.weight-w.result) (sym c.in_ok-l.ensures) (subst (IsAdmitted 3) (sym c.weight-w.ensures) admitted)

pub tensor-requires-clause-within : goal.tensor-requires-clause-within
tensor-requires-clause-within c =
    subst (λ l. IsWithin l c.weight-w.result (monomial_of c.in_ok-m.m)) (sym c.in_ok-l.ensures)
    (subst (λ w. IsWithin form_layout w (monomial_of c.in_ok-m.m)) (sym c.weight-w.ensures)
    (subst (IsWithin form_layout form_weight) (sym c.in_ok-m.ensures) (within c.args.direction c.requires)))
EOA
cat > crates/tensors_race/src/main.rt <<'EOR'
//! Microseconds to form reference tensors.
#![tactic(auto)]

ghost use Rattle.std.specs.Prelude.{◌≡◌, ◌<◌, IfOk};
ghost use Rattle.monos.specs.Monomial.{monomial_of};
ghost use Rattle.tensors_race.specs.Form.{cubic, form_layout, form_weight, form_monomial, count_in, derivative};

use monos::{Atom, Layout, Mono, Weight};
use ratio::Ratio;
use spaces::{Family, Part, Parts};
use sqlite_items::Items;
use std::alloc::{AllocError, Global};
use std::io;
use std::time::Instant;
use tensors::{RefTensor, tensor};
use ufl_tree::{Function, Role};

fn parts(alloc: Global) -> Result<Parts, AllocError>
    ensures { IfOk result (λ p. p ≡ cubic) }
{
    let part = Part {
        family: Family::Lagrange,
        degree: 3,
        nodes: 20,
        offset: 0,
    };
    Parts::copies(alloc, part, 1)
}

fn layout(alloc: Global) -> Result<Layout, AllocError>
    ensures { IfOk result (λ l. l ≡ form_layout) }
{
    let rows = parts(alloc)?;
    let cols = parts(alloc)?;
    Ok(Layout {
        d: 3,
        rows,
        cols,
        coefs: Items::new(alloc),
        position: None,
    })
}

fn weight() -> Weight
    ensures { result ≡ form_weight }
{
    Weight {
        cost: 10800,
        deg: 4,
        g: 2,
        f: 2,
        rmin: 2,
        rmax: 2,
        num: 9,
        den: 1,
        fac: 36,
        s: 107495424,
    }
}

/// How often something is derived in direction k.
fn count(direction: u8, k: u8) -> u8
    ensures { result ≡ count_in direction k }
{
    if direction == k { 1 } else { 0 }
}

/// The derivative of a function in a direction.
fn atom(role: Role, direction: u8) -> Atom
    ensures { result ≡ derivative role direction }
{
    Atom {
        f: Function { role, element: 0 },
        component: 0,
        dirs: [count(direction, 0), count(direction, 1), count(direction, 2)],
    }
}

/// The product of the derivatives of test and trial function in a direction.
fn monomial(alloc: Global, direction: u8) -> Result<Mono, AllocError>
    ensures { IfOk result (λ m. monomial_of m ≡ form_monomial direction) }
{
    let mut atoms = Items::new(alloc);
    atoms.push(atom(Role::Test, direction))?;
    atoms.push(atom(Role::Trial, direction))?;
    Ok(Mono {
        c: Ratio::one(),
        atoms,
    })
}

/// The tensor of the product of the derivatives in a direction.
fn form_tensor(alloc: Global, direction: u8) -> Result<RefTensor, AllocError>
    requires { direction < 3 }
{
    let l = layout(alloc)?;
    let m = monomial(alloc, direction)?;
    let w = weight();
    tensor(alloc, &m, &l, &w)
}

/// The sum of the items of the first row, over all directions.
fn total(alloc: Global) -> Option<Ratio> {
    let mut sum = Ratio::zero();
    for direction in 0..3 {
        let tensor = form_tensor(alloc, direction).ok()?;
        if tensor.rows() > 0 {
            for item in tensor.row(0) {
                sum = sum.add(*item)?;
            }
        }
    }
    Some(sum)
}

fn main(rt: HostRuntime) -> io::Result<()> {
    let mut best = u128::MAX;
    for _ in 0..20 {
        let start = Instant::now(&rt)?;
        let sum = total(rt.alloc());
        best = best.min(start.elapsed(&rt)?.as_micros());
        if sum != Ratio::new(45, 28) {
            println!(rt; "a wrong item")?;
        }
    }
    println!(rt; "3 tensors of 3600 items: {best} microseconds")?;
    Ok(())
}
EOR
cd crates/tensors_race
rt run > run.log 2>&1 || { cat run.log; exit 1; }
grep -E 'microseconds|wrong' run.log
! grep -q 'wrong' run.log
