//! Links the static library that `rt lib` writes in `crates/table`.

use std::path::Path;

fn main() {
    let folder = Path::new(env!("CARGO_MANIFEST_DIR")).join("../../crates/table/out");
    let library = folder.join("libtable.a");
    println!("cargo::rerun-if-changed={}", library.display());
    if !library.exists() {
        println!(
            "cargo::error=crates/table/out/libtable.a is missing: run `rt lib` in crates/table"
        );
        return;
    }
    println!("cargo::rustc-link-search=native={}", folder.display());
    println!("cargo::rustc-link-lib=static=table");
}
