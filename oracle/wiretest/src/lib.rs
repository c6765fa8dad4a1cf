//! The C functions of crate wire_c, callable from Rust, and the same answers in plain Rust after wire.rs.

use reading::Rng;

/// The lengths of the fixed parts of a circuit's numbers and biases.
pub const FIXED_NUMS: usize = 2176;
pub const FIXED_BIASES: usize = 896;

/// A number of document 01, and the value where it is 0.
#[repr(C)]
#[derive(Clone, Copy, Debug)]
pub struct Answer {
    pub number: u32,
    pub value: f32,
}

/// A number, and the first bad op where it is 17.
#[repr(C)]
#[derive(Clone, Copy, Debug, PartialEq)]
pub struct Ended {
    pub number: u32,
    pub op: usize,
}

/// A circuit's storage.
#[derive(Clone, Debug, Default)]
pub struct Storage {
    pub nums: Vec<u32>,
    pub biases: Vec<f32>,
    pub wires: Vec<u32>,
    pub coefs: Vec<f32>,
}

#[derive(Clone, Copy, Debug)]
pub struct Form {
    pub bias: f32,
    pub first: usize,
    pub len: usize,
}

/// The crate's answers.
pub mod proved {
    use archive::call;
    use reading::vectors::Counts;

    use super::{Answer, Ended, Form, Storage};

    unsafe extern "C" {
        fn palthengi_value(
            bias: f32,
            first: usize,
            len: usize,
            wires: *const u32,
            wires_len: usize,
            coefs: *const f32,
            coefs_len: usize,
            table: *const f32,
            table_len: usize,
        ) -> Answer;
        fn palthengi_op_value(
            nums: *const u32,
            nums_len: usize,
            biases: *const f32,
            biases_len: usize,
            wires: *const u32,
            wires_len: usize,
            coefs: *const f32,
            coefs_len: usize,
            table: *const f32,
            table_len: usize,
            i: usize,
        ) -> Answer;
        fn palthengi_evaluate(
            counts: Counts,
            nums: *const u32,
            nums_len: usize,
            biases: *const f32,
            biases_len: usize,
            wires: *const u32,
            wires_len: usize,
            coefs: *const f32,
            coefs_len: usize,
            table: *mut f32,
            table_len: usize,
        ) -> Ended;
        fn palthengi_layers(
            counts: Counts,
            nums: *const u32,
            nums_len: usize,
            biases: *const f32,
            biases_len: usize,
            wires: *const u32,
            wires_len: usize,
            out: *mut u32,
            out_len: usize,
        ) -> u32;
        fn palthengi_depth(layers: *const u32, layers_len: usize) -> u32;
    }

    pub fn value(f: Form, s: &Storage, table: &[f32]) -> Answer {
        // SAFETY: each slice goes over as its pointer and its length, and nothing is kept.
        unsafe {
            call!(palthengi_value(f.bias, f.first, f.len) reads(s.wires, s.coefs, table) writes())
        }
    }

    pub fn op_value(s: &Storage, table: &[f32], i: usize) -> Answer {
        // SAFETY: as above.
        unsafe {
            call!(palthengi_op_value() reads(s.nums, s.biases, s.wires, s.coefs, table) writes() then(i))
        }
    }

    pub fn evaluate(counts: Counts, s: &Storage, table: &mut [f32]) -> Ended {
        // SAFETY: as above.
        unsafe {
            call!(palthengi_evaluate(counts) reads(s.nums, s.biases, s.wires, s.coefs) writes(table))
        }
    }

    pub fn layers(counts: Counts, s: &Storage, out: &mut [u32]) -> u32 {
        // SAFETY: as above.
        unsafe { call!(palthengi_layers(counts) reads(s.nums, s.biases, s.wires) writes(out)) }
    }

    pub fn depth(layers: &[u32]) -> u32 {
        // SAFETY: as above.
        unsafe { call!(palthengi_depth() reads(layers) writes()) }
    }
}

/// The same in plain Rust: wire.rs's folds over vectors, with `None` where it would panic.
pub mod plain {
    use super::{FIXED_BIASES, FIXED_NUMS, Form, Storage};

    #[derive(Clone, Debug)]
    pub struct Affine {
        bias: f32,
        terms: Vec<(u32, f32)>,
    }

    #[derive(Clone, Debug)]
    pub enum Op {
        Affine(Affine),
        Reglu { left: Affine, gate: Affine },
    }

    pub fn read(f: Form, s: &Storage) -> Option<Affine> {
        let end = f.first.checked_add(f.len)?;
        let wires = s.wires.get(f.first..end)?;
        let coefs = s.coefs.get(f.first..end)?;
        let terms = wires.iter().copied().zip(coefs.iter().copied()).collect();
        Some(Affine {
            bias: f.bias,
            terms,
        })
    }

    pub fn value(a: &Affine, table: &[f32]) -> Option<f32> {
        a.terms
            .iter()
            .try_fold(a.bias, |total, (wire, coefficient)| {
                Some(total + coefficient * table.get(*wire as usize)?)
            })
    }

    /// A value, and whether Rust leaves its zero's sign open: `f32::max` may return either zero of two.
    pub fn op_value(op: &Op, table: &[f32]) -> Option<(f32, bool)> {
        match op {
            Op::Affine(form) => Some((value(form, table)?, false)),
            Op::Reglu { left, gate } => {
                let gate = value(gate, table)?;
                Some((value(left, table)? * gate.max(0.0), gate == 0.0))
            }
        }
    }

    /// The forms of op slot i as stored, and its kind.
    pub fn slot(s: &Storage, i: usize) -> Option<(u32, Form, Form)> {
        let n = s.nums.get(FIXED_NUMS + 5 * i..FIXED_NUMS + 5 * i + 5)?;
        let b = s
            .biases
            .get(FIXED_BIASES + 2 * i..FIXED_BIASES + 2 * i + 2)?;
        let form = |bias, first: u32, len: u32| Form {
            bias,
            first: first as usize,
            len: len as usize,
        };
        Some((n[0], form(b[0], n[1], n[2]), form(b[1], n[3], n[4])))
    }

    /// What an op's layer goes by: the wires of its forms, an empty part where one points past the pool.
    pub fn wires_read(s: &Storage, i: usize) -> Vec<u32> {
        let part = |f: Form| match f.first.checked_add(f.len) {
            Some(end) => s.wires.get(f.first..end).unwrap_or(&[]).to_vec(),
            None => Vec::new(),
        };
        match slot(s, i) {
            Some((1, left, _)) => part(left),
            Some((2, left, gate)) => [part(left), part(gate)].concat(),
            _ => Vec::new(),
        }
    }

    pub fn layers(s: &Storage, cells: usize, ops: usize) -> Vec<u32> {
        let mut depths = vec![0; cells + ops];
        for index in 0..ops {
            let deepest = wires_read(s, index)
                .iter()
                .map(|wire| depths.get(*wire as usize).copied().unwrap_or(0))
                .max()
                .unwrap_or(0);
            depths[cells + index] = deepest + 1;
        }
        depths
    }
}

/// Random floats, pools and ranges.
pub struct Random(pub Rng);

impl Random {
    /// A float: a special one, a small whole one, a fraction, or any bits at all.
    pub fn float(&mut self) -> f32 {
        const SPECIAL: [u32; 12] = [
            0x0000_0000, // 0
            0x8000_0000, // -0
            0x7f80_0000, // infinity
            0xff80_0000, // -infinity
            0x7fc0_0000, // NaN
            0xffc0_1234, // NaN with a sign and a payload
            0x7f80_0001, // signalling NaN
            0x0000_0001, // least subnormal
            0x7f7f_ffff, // largest
            0x4b80_0000, // 2^24
            0x3f80_0000, // 1
            0xbf80_0000, // -1
        ];
        match self.0.below(8) {
            0 => f32::from_bits(SPECIAL[self.0.below(SPECIAL.len())]),
            1 => f32::from_bits(self.0.number() as u32),
            2 => (self.0.below(2001) as f32 - 1000.0) / 7.0,
            _ => self.0.below(131_073) as f32 - 65_536.0,
        }
    }

    pub fn floats(&mut self, n: usize) -> Vec<f32> {
        (0..n).map(|_| self.float()).collect()
    }

    /// Pools of lengths that mostly agree, with wires mostly below `values`.
    pub fn pools(&mut self, most: usize, values: usize) -> Storage {
        let n = self.0.below(most);
        let m = if self.0.one_in(8) {
            self.0.below(most)
        } else {
            n
        };
        let wires = (0..n).map(|_| self.wire(values)).collect();
        Storage {
            wires,
            coefs: self.floats(m),
            ..Storage::default()
        }
    }

    pub fn wire(&mut self, values: usize) -> u32 {
        match self.0.below(200) {
            0 => values as u32,
            1 => self.0.number() as u32,
            _ if values == 0 => 0,
            _ => self.0.below(values) as u32,
        }
    }

    /// A form's range, mostly inside pools of n terms.
    pub fn range(&mut self, n: usize) -> (usize, usize) {
        match self.0.below(100) {
            0 => (self.0.below(n + 4), self.0.below(n + 4)),
            1 => (u32::MAX as usize, self.0.below(9)),
            2 => (n, 0),
            _ => {
                let first = self.0.below(n + 1);
                (first, self.0.below(n - first + 1))
            }
        }
    }
}
