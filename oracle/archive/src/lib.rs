//! The archives that `tools/archive` writes: linking one from a build script, calling its C functions on slices, and what their users share.

/// Links `target/staticlib/libNAME.a`; for a build script.
pub fn link(name: &str) {
    let folder = concat!(env!("CARGO_MANIFEST_DIR"), "/../../target/staticlib");
    println!("cargo:rustc-link-search=native={folder}");
    println!("cargo:rustc-link-lib=static={name}");
    println!("cargo:rerun-if-changed={folder}/lib{name}.a");
}

/// Calls a C function: values first, then each slice that it reads and each that it writes, as its pointer and its length, then more values.
/// Such a call is safe where the slices do not overlap and the function is declared with these types.
#[macro_export]
macro_rules! call {
    ($function:ident($($first:expr),*) reads($($read:expr),*) writes($($written:expr),*) $(then($($last:expr),*))?) => {
        $function(
            $($first,)*
            $($read.as_ptr(), $read.len(),)*
            $($written.as_mut_ptr(), $written.len(),)*
            $($($last,)*)?
        )
    };
}

/// Equal bits; all NaNs count as one.
pub fn same(a: f32, b: f32) -> bool {
    a.to_bits() == b.to_bits() || (a.is_nan() && b.is_nan())
}
