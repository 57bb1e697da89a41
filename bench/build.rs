//! Links the static library liblamjhotu.a: from LAMJHOTU_LIB, or from ../target/staticlib, where
//! ./library at the top of the repository puts it.

use std::env;
use std::path::{Path, PathBuf};

fn main() {
    println!("cargo:rerun-if-env-changed=LAMJHOTU_LIB");
    let folder = match env::var_os("LAMJHOTU_LIB") {
        Some(folder) if !folder.is_empty() => PathBuf::from(folder),
        _ => Path::new(env!("CARGO_MANIFEST_DIR")).join("../target/staticlib"),
    };
    println!(
        "cargo:rerun-if-changed={}",
        folder.join("liblamjhotu.a").display()
    );
    println!("cargo:rustc-link-search=native={}", folder.display());
    println!("cargo:rustc-link-lib=static=lamjhotu");
}
