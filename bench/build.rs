//! Links liblinear_layers.a, the linear solver under C calling rules; libgodf.a comes with the oracle.

use std::path::PathBuf;

fn main() {
    let root = PathBuf::from(std::env::var("CARGO_MANIFEST_DIR").unwrap());
    let library = root.join("../target/bench");
    println!(
        "cargo:rerun-if-changed={}",
        library.join("liblinear_layers.a").display()
    );
    println!("cargo:rustc-link-search=native={}", library.display());
    println!("cargo:rustc-link-lib=static=linear_layers");
}
