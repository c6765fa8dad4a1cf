//! Random forms, NaN, infinities, -0 and short pools among them: crate arena_c makes the sums and multiples that the Rust's own `Affine` does.
use arenatest::{Form, Pools, Row};
use behavior_machines_circuit::{Affine, Builder};
use reading::rng::Rng;

const WIRES: u32 = 14;

fn float(r: &mut Rng) -> f32 {
    match r.below(12) {
        0 => f32::NAN,
        1 => f32::INFINITY,
        2 => f32::NEG_INFINITY,
        3 => -0.0,
        4 => 0.0,
        5 => f32::from_bits(r.number() as u32),
        6 => f32::from_bits(1),
        7 => f32::MAX,
        _ => r.below(9) as f32 - 4.0,
    }
}

fn affine(r: &mut Rng, builder: &Builder) -> Affine {
    let count = r.below(9);
    let bias = float(r);
    let terms: Vec<_> = (0..count)
        .map(|_| (builder.input(r.below(WIRES as usize) as u32), float(r)))
        .collect();
    Affine::new(bias, terms)
}

/// The form's terms written past those in use.
fn lay(pools: &mut Pools, form: &Affine) -> Form {
    let first = pools.used;
    for (wire, coef) in form.terms() {
        pools.wires[pools.used] = wire.position() as u32;
        pools.coefs[pools.used] = *coef;
        pools.used += 1;
    }
    Form {
        bias: form.bias(),
        first,
        len: form.terms().len(),
    }
}

/// All NaNs are one answer, and zeros of either sign are equal.
fn same(a: f32, b: f32) -> bool {
    a == b || (a.is_nan() && b.is_nan())
}

fn untouched(before: &Pools, after: &Pools, from: usize, to: usize) -> bool {
    (from..to).all(|i| {
        before.wires.get(i) == after.wires.get(i)
            && before.coefs.get(i).map(|x| x.to_bits()) == after.coefs.get(i).map(|x| x.to_bits())
    })
}

fn holds(pools: &Pools, row: Row, want: &Affine) -> bool {
    same(row.bias, want.bias())
        && row.len == want.terms().len()
        && want.terms().iter().enumerate().all(|(i, (wire, coef))| {
            pools.wires[row.first + i] as usize == wire.position()
                && same(pools.coefs[row.first + i], *coef)
                && pools.coefs[row.first + i] != 0.0
        })
}

#[test]
fn operations() {
    let mut r = Rng::new(1);
    let builder = Builder::new(WIRES);
    let (mut refused, mut shared) = (0, 0);
    for case in 0..300_000 {
        let (a, b, factor) = (
            affine(&mut r, &builder),
            affine(&mut r, &builder),
            float(&mut r),
        );
        let slots = r.between(20, 59);
        let mut pools = Pools {
            wires: vec![7777; slots],
            coefs: vec![0.25; slots],
            used: r.below(3),
        };
        let (left, right) = (lay(&mut pools, &a), lay(&mut pools, &b));
        pools.wires.truncate(slots - r.below(2));
        pools.coefs.truncate(slots - r.below(3));
        let before = pools.clone();
        let lent = pools.wires.len().min(pools.coefs.len());
        // A sum with a form without terms shares the other's and needs no room.
        let free = left.len == 0 || right.len == 0;
        let (row, want, fits) = match r.below(3) {
            0 => {
                let need = before.used + left.len + right.len;
                (pools.plus(left, right), a.plus(&b), free || need <= lent)
            }
            1 => (
                pools.scaled(left, factor),
                a.scaled(factor),
                before.used + left.len <= lent,
            ),
            _ => {
                let want = a.scaled(-1.0).offset(1.0);
                (pools.one_minus(left), want, before.used + left.len <= lent)
            }
        };
        assert_eq!(row.ok, fits, "case {case}: {row:?}");
        let end = before.wires.len().max(before.coefs.len());
        if !row.ok {
            refused += 1;
            assert!(
                row.used == before.used && untouched(&before, &pools, 0, end),
                "case {case}"
            );
            continue;
        }
        shared += usize::from(row.used == before.used && row.len > 0);
        assert!(
            row.used == before.used || row.used == row.first + row.len,
            "case {case}: {row:?}"
        );
        assert!(
            holds(&pools, row, &want),
            "case {case}: {row:?} for {want:?}"
        );
        assert!(
            untouched(&before, &pools, 0, before.used) && untouched(&before, &pools, row.used, end),
            "case {case}: written past the form"
        );
    }
    println!("arena: 300000 operations as the Rust's, {refused} refused for room, {shared} shared");
    assert!(refused > 500 && shared > 5_000);
}
