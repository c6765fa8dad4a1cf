//! Links the archive of crate arena_c.

fn main() {
    archive::link("arena_c");
}
