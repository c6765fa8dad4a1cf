//! Links the archive of crate palthengi.

fn main() {
    archive::link("palthengi");
}
