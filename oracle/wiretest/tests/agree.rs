//! Random forms, ops and circuits, NaN, infinities, -0 and short tables among them: crate wire_c answers as plain Rust does.
use archive::same;
use reading::Rng;
use reading::vectors::Counts;
use wiretest::{Ended, FIXED_BIASES, FIXED_NUMS, Form, Random, Storage, plain, proved};

/// How often each way out was taken: a test that meets one of them never has compared nothing.
#[derive(Default, Debug)]
struct Seen {
    values: usize,
    nans: usize,
    short: usize,
    bad: usize,
    open_zeros: usize,
}

#[test]
fn forms() {
    let mut r = Random(Rng::new(1));
    let mut seen = Seen::default();
    for case in 0..100_000 {
        let places = r.0.below(40);
        let table = r.floats(places);
        let s = r.pools(24, places);
        let (first, len) = match r.0.below(500) {
            0 => (usize::MAX, r.0.below(3)),
            1 => (r.0.below(3), usize::MAX),
            _ => r.range(s.wires.len().min(s.coefs.len())),
        };
        let f = Form {
            bias: r.float(),
            first,
            len,
        };
        let got = proved::value(f, &s, &table);
        match plain::read(f, &s).and_then(|a| plain::value(&a, &table)) {
            Some(v) => {
                assert!(
                    got.number == 0 && same(got.value, v),
                    "case {case}: {got:?} for {v} ({f:?}, {s:?}, {table:?})"
                );
                seen.values += 1;
                seen.nans += usize::from(v.is_nan());
            }
            None => {
                assert_eq!(got.number, 14, "case {case}: {f:?}");
                seen.short += 1;
            }
        }
    }
    println!("forms: {seen:?}");
    assert!(seen.values > 50_000 && seen.nans > 1_000 && seen.short > 5_000);
}

/// A circuit of random ops, its numbers and biases of about the right lengths.
fn circuit(r: &mut Random, cells: usize, ops: usize) -> Storage {
    let mut s = r.pools(40, cells + ops);
    let lent = s.wires.len().min(s.coefs.len());
    s.nums = vec![0; FIXED_NUMS];
    s.biases = vec![0.0; FIXED_BIASES];
    for _ in 0..ops {
        s.nums.push(if r.0.one_in(100) {
            r.0.below(4) as u32
        } else {
            1 + r.0.below(2) as u32
        });
        for _ in 0..2 {
            let (first, len) = r.range(lent);
            s.nums.push(first as u32);
            s.nums.push(len as u32);
            s.biases.push(r.float());
        }
    }
    if r.0.one_in(50) {
        s.nums
            .truncate(FIXED_NUMS + 5 * ops - r.0.below(6).min(5 * ops));
    }
    if r.0.one_in(50) {
        s.biases
            .truncate(FIXED_BIASES + 2 * ops - r.0.below(4).min(2 * ops));
    }
    if r.0.one_in(200) {
        s.nums.truncate(r.0.below(FIXED_NUMS));
    }
    s
}

/// The op in slot i, by its kind; `Err` for the number 14 where a form points past a pool, 17 where there is no op.
fn op(s: &Storage, i: usize) -> Result<plain::Op, u32> {
    match plain::slot(s, i) {
        Some((1, left, _)) => Ok(plain::Op::Affine(plain::read(left, s).ok_or(14u32)?)),
        Some((2, left, gate)) => Ok(plain::Op::Reglu {
            left: plain::read(left, s).ok_or(14u32)?,
            gate: plain::read(gate, s).ok_or(14u32)?,
        }),
        _ => Err(17),
    }
}

#[test]
fn ops() {
    let mut r = Random(Rng::new(2));
    let mut seen = Seen::default();
    for case in 0..25_000 {
        let places = r.0.below(40);
        let s = circuit(&mut r, places.saturating_sub(4), 4);
        let mut table = r.floats(places);
        if r.0.one_in(3) {
            table
                .iter_mut()
                .for_each(|v| *v = if *v > 0.0 { 1.0 } else { -0.0 });
        }
        for i in 0..5 {
            let got = proved::op_value(&s, &table, i);
            match op(&s, i).and_then(|o| plain::op_value(&o, &table).ok_or(14)) {
                Ok((v, open)) => {
                    let agrees = if open {
                        got.value == v || same(got.value, v)
                    } else {
                        same(got.value, v)
                    };
                    assert!(
                        got.number == 0 && agrees,
                        "case {case}, op {i}: {got:?} for {v} ({s:?}, {table:?})"
                    );
                    seen.values += 1;
                    seen.nans += usize::from(v.is_nan());
                    seen.open_zeros += usize::from(open);
                }
                Err(number) => {
                    assert_eq!(got.number, number, "case {case}, op {i}");
                    *(if number == 14 {
                        &mut seen.short
                    } else {
                        &mut seen.bad
                    }) += 1;
                }
            }
        }
    }
    println!("ops: {seen:?}");
    assert!(
        seen.values > 50_000
            && seen.nans > 1_000
            && seen.short > 5_000
            && seen.bad > 1_000
            && seen.open_zeros > 100
    );
}

#[test]
fn circuits() {
    let mut r = Random(Rng::new(3));
    let (mut done, mut short, mut bad) = (0, 0, 0);
    for case in 0..10_000 {
        let (cells, ops) = (r.0.below(12), r.0.below(10));
        let mut s = circuit(&mut r, cells, ops);
        // Mostly ops that read before their own value, so that some circuits run to the end.
        if !r.0.one_in(4) && cells > 0 {
            s.wires.iter_mut().for_each(|w| *w %= cells as u32);
        }
        let spare = r.0.below(4);
        let places = if r.0.one_in(10) {
            r.0.below(cells + ops + 1)
        } else {
            cells + ops + spare
        };
        let entry = r.floats(places);
        let counts = Counts {
            cells,
            ops,
            ..Counts::default()
        };

        // Plain Rust: a vector that grows by one value an op, over the entry's cells.
        let mut left = entry.clone();
        let mut open = vec![false; places];
        let expected = if places < cells + ops {
            Ended { number: 14, op: 0 }
        } else {
            let mut end = Ended { number: 0, op: 0 };
            for i in 0..ops {
                match op(&s, i)
                    .ok()
                    .and_then(|o| plain::op_value(&o, &left[..cells + i]))
                {
                    Some((v, zero)) => {
                        left[cells + i] = v;
                        open[cells + i] = zero;
                    }
                    None => {
                        end = Ended { number: 17, op: i };
                        break;
                    }
                }
            }
            end
        };
        let mut table = entry.clone();
        let got = proved::evaluate(counts, &s, &mut table);
        assert_eq!(got, expected, "case {case}");
        // A zero of the other sign may travel on; from the first such on, zeros count as equal.
        let mut loose = false;
        for k in 0..places {
            loose |= open[k];
            assert!(
                same(table[k], left[k]) || (loose && table[k] == left[k]),
                "case {case}, place {k}: {} for {}",
                table[k],
                left[k]
            );
        }
        *match expected.number {
            0 => &mut done,
            14 => &mut short,
            _ => &mut bad,
        } += 1;

        let mut out: Vec<u32> = (0..places).map(|_| r.0.number() as u32).collect();
        let before = out.clone();
        let number = proved::layers(counts, &s, &mut out);
        if places < cells + ops {
            assert_eq!((number, &out), (14, &before), "case {case}");
        } else {
            let layers = plain::layers(&s, cells, ops);
            assert_eq!(
                (number, &out[..cells + ops]),
                (0, &layers[..]),
                "case {case}"
            );
            assert_eq!(out[cells + ops..], before[cells + ops..], "case {case}");
            assert_eq!(
                proved::depth(&out[..cells + ops]),
                layers.iter().copied().max().unwrap_or(0),
                "case {case}"
            );
        }
    }
    println!("circuits: {done} done, {short} short, {bad} with a bad op");
    assert!(done > 1_000 && short > 300 && bad > 1_000);
}
