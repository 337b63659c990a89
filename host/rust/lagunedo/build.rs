//! Links the archive that C programs link too.

fn main() {
    archive::link("lagunedo");
}
