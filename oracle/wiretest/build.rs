//! Links the archive of crate wire_c.

fn main() {
    archive::link("wire_c");
}
