//! The C functions of crate arena_c, callable from Rust on two pools of terms.

use archive::call;

/// A form by its bias and the range of its terms, and the room that is left.
#[repr(C)]
#[derive(Clone, Copy, Debug)]
pub struct Row {
    pub bias: f32,
    pub first: usize,
    pub len: usize,
    pub used: usize,
    pub ok: bool,
}

#[derive(Clone, Copy, Debug)]
pub struct Form {
    pub bias: f32,
    pub first: usize,
    pub len: usize,
}

/// Two lent pools, of which the first terms are in use.
#[derive(Clone, Debug)]
pub struct Pools {
    pub wires: Vec<u32>,
    pub coefs: Vec<f32>,
    pub used: usize,
}

unsafe extern "C" {
    fn palthengi_plus(
        wires: *mut u32,
        wires_len: usize,
        coefs: *mut f32,
        coefs_len: usize,
        used: usize,
        a: f32,
        a_first: usize,
        a_len: usize,
        b: f32,
        b_first: usize,
        b_len: usize,
    ) -> Row;
    fn palthengi_scaled(
        wires: *mut u32,
        wires_len: usize,
        coefs: *mut f32,
        coefs_len: usize,
        used: usize,
        a: f32,
        first: usize,
        len: usize,
        factor: f32,
    ) -> Row;
    fn palthengi_one_minus(
        wires: *mut u32,
        wires_len: usize,
        coefs: *mut f32,
        coefs_len: usize,
        used: usize,
        a: f32,
        first: usize,
        len: usize,
    ) -> Row;
}

impl Pools {
    pub fn plus(&mut self, a: Form, b: Form) -> Row {
        // SAFETY: each slice goes over as its pointer and its length, and nothing is kept.
        unsafe {
            call!(
                palthengi_plus() reads() writes(self.wires, self.coefs)
                then(self.used, a.bias, a.first, a.len, b.bias, b.first, b.len)
            )
        }
    }

    pub fn scaled(&mut self, a: Form, factor: f32) -> Row {
        // SAFETY: as above.
        unsafe {
            call!(
                palthengi_scaled() reads() writes(self.wires, self.coefs)
                then(self.used, a.bias, a.first, a.len, factor)
            )
        }
    }

    pub fn one_minus(&mut self, a: Form) -> Row {
        // SAFETY: as above.
        unsafe {
            call!(
                palthengi_one_minus() reads() writes(self.wires, self.coefs)
                then(self.used, a.bias, a.first, a.len)
            )
        }
    }
}
