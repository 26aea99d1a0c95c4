//! Finds the published Rust and hands its folder on as FIB_SRC.

use std::path::Path;

const FILES: [&str; 8] =
    ["error.rs", "bitpack.rs", "profile.rs", "metrics.rs", "rotation.rs", "lloyd.rs", "codebook.rs", "codec.rs"];

fn main() {
    let folder = std::env::var("FIB_SRC")
        .unwrap_or_else(|_| format!("{}/../../../shared/docs/src/fib-quant/src/", env!("CARGO_MANIFEST_DIR")));
    println!("cargo:rerun-if-env-changed=FIB_SRC");
    for file in FILES {
        let path = Path::new(&folder).join(file);
        if !path.is_file() {
            eprintln!("{} is missing: set FIB_SRC to the folder of the published fib-quant sources", path.display());
            std::process::exit(1);
        }
        println!("cargo:rerun-if-changed={}", path.display());
    }
    // An absolute path that ends in a slash, for `concat!`.
    let folder = std::fs::canonicalize(&folder).expect("the folder was just read");
    println!("cargo:rustc-env=FIB_SRC={}/", folder.display());
}
