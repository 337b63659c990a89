//! Links the archive of inner calls.

fn main() {
    archive::link("probe");
}
