// Links the proved static library, which the Rattle toolchain builds and cargo cannot.

use std::path::Path;
use std::process::exit;

fn main() {
    let root = Path::new(env!("CARGO_MANIFEST_DIR")).join("..");
    let folder = root.join("crates").join("tablet").join("out");
    let library = folder.join("libtablet.a");
    println!("cargo:rerun-if-changed={}", library.display());
    if !library.is_file() {
        eprintln!("no static library at {}", library.display());
        eprintln!("build it first: run `rt lib` in crates/tablet");
        exit(1);
    }
    println!("cargo:rustc-link-search=native={}", folder.display());
    println!("cargo:rustc-link-lib=static=tablet");
}
