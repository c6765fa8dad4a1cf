//! The proved functions, as include/palthengi.h declares them.

use archive::call;

use crate::{Compilation, Counts, Lent, Refusal, Stored, Work};

unsafe extern "C" {
    fn palthengi_compile(
        tree: *const u8,
        tl: usize,
        nums: *mut u32,
        nl: usize,
        biases: *mut f32,
        bl: usize,
        wires: *mut u32,
        wl: usize,
        coefs: *mut f32,
        cl: usize,
        work_nums: *mut usize,
        wnl: usize,
        work_biases: *mut f32,
        wbl: usize,
        work_wires: *mut u32,
        wwl: usize,
        work_coefs: *mut f32,
        wcl: usize,
    ) -> Compilation;
    fn palthengi_check(
        c: Counts,
        nums: *const u32,
        nl: usize,
        biases: *const f32,
        bl: usize,
        wires: *const u32,
        wl: usize,
        coefs: *const f32,
        cl: usize,
    ) -> u32;
    fn palthengi_validate(
        c: Counts,
        nums: *const u32,
        nl: usize,
        biases: *const f32,
        bl: usize,
        wires: *const u32,
        wl: usize,
        coefs: *const f32,
        cl: usize,
        table: *const f32,
        tl: usize,
    ) -> Refusal;
    fn palthengi_tick(
        c: Counts,
        nums: *const u32,
        nl: usize,
        biases: *const f32,
        bl: usize,
        wires: *const u32,
        wl: usize,
        coefs: *const f32,
        cl: usize,
        row: *const u8,
        rl: usize,
        flags: *mut u8,
        fl: usize,
        cursors: *mut u32,
        ul: usize,
        values: *mut f32,
        vl: usize,
        statuses: *mut u8,
        sl: usize,
        halts: *mut u8,
        hl: usize,
        edges: *mut u8,
        el: usize,
    ) -> Refusal;
}

/// Whether the storage is a circuit.
pub fn check(s: &Stored) -> u32 {
    // SAFETY: each slice goes over as its pointer and its length, and nothing is kept.
    unsafe { call!(palthengi_check(s.counts) reads(s.nums, s.biases, s.wires, s.coefs) writes()) }
}

/// Validation of a table.
pub fn validate(s: &Stored, table: &[f32]) -> Refusal {
    // SAFETY: as above.
    unsafe {
        call!(palthengi_validate(s.counts) reads(s.nums, s.biases, s.wires, s.coefs, table) writes())
    }
}

/// One tick.
pub fn tick(s: &Stored, row: &[u8], l: &mut Lent) -> Refusal {
    // SAFETY: as above; what is written is borrowed for the call alone.
    unsafe {
        call!(
            palthengi_tick(s.counts)
            reads(s.nums, s.biases, s.wires, s.coefs, row)
            writes(l.flags, l.cursors, l.values, l.statuses, l.halts, l.edges)
        )
    }
}

/// Compiles a tree into the storage lent; the counts of what is stored are in the answer.
pub fn compile(tree: &[u8], s: &mut Stored, w: &mut Work) -> Compilation {
    // SAFETY: as above.
    unsafe {
        call!(
            palthengi_compile()
            reads(tree)
            writes(s.nums, s.biases, s.wires, s.coefs, w.nums, w.biases, w.wires, w.coefs)
        )
    }
}
