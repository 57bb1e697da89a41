//! Finds the Rust source and writes, into the build's own folder, the module lines that name its
//! files. The files themselves are compiled where they lie, as they are.
//!
//! The folder is LAMJHOTU_SOURCE, or ../shared/docs/src beside the repository.

use std::path::{Path, PathBuf};
use std::{env, fs};

fn main() {
    println!("cargo:rerun-if-env-changed=LAMJHOTU_SOURCE");
    let folder = match env::var_os("LAMJHOTU_SOURCE") {
        Some(folder) if !folder.is_empty() => PathBuf::from(folder),
        _ => Path::new(env!("CARGO_MANIFEST_DIR")).join("../../shared/docs/src"),
    };
    let folder = folder.join("artinchip-hal/src");
    let folder = folder.canonicalize().unwrap_or_else(|error| {
        panic!("no Rust source at {folder:?} ({error}); set LAMJHOTU_SOURCE to its folder docs/src")
    });
    let out = PathBuf::from(env::var_os("OUT_DIR").unwrap());

    let module = |file: &Path, name: &str| {
        println!("cargo:rerun-if-changed={}", file.display());
        format!("#[path = {:?}]\npub mod {name};\n", file)
    };

    // The engine, the shell and the storage.
    let mut lines = String::new();
    for name in ["protocol", "shell", "storage"] {
        let mut file = folder.join("aic_upg").join(name).with_extension("rs");
        if name == "storage" && env::var_os("CARGO_FEATURE_PEEK").is_some() {
            println!("cargo:rerun-if-changed={}", file.display());
            file = with_peek(&file, &out);
        }
        lines += &module(&file, name);
    }
    fs::write(out.join("aic_upg.rs"), lines).unwrap();

    // NandGeometry's file as it is, and the trait RawNandFlash cut out of a file that needs the bus.
    let nand = folder.join("spi_flash/nand");
    let mut lines = module(&nand.join("config.rs"), "config");
    lines += "use config::NandGeometry;\n";
    let driver = nand.join("driver.rs");
    println!("cargo:rerun-if-changed={}", driver.display());
    let text = fs::read_to_string(&driver).unwrap();
    let start = text.find("\npub trait RawNandFlash").unwrap() + 1;
    let end = start + text[start..].find("\n}\n").unwrap() + 3;
    lines += &text[start..end];
    fs::write(out.join("nand.rs"), lines).unwrap();
}

/// Only with the feature `peek`: the storage's text with two functions behind it that tell the held
/// address from the private fields.
fn with_peek(file: &Path, out: &Path) -> PathBuf {
    let mut text = fs::read_to_string(file).unwrap();
    text += "
impl<F: NorFlash> NorUpgStorage<'_, F> {
    pub fn peek(&self) -> Option<u64> {
        (self.buffer_len != 0).then_some(self.buffer_addr)
    }
}

impl<N: RawNandFlash> NandUpgStorage<'_, N> {
    pub fn peek(&self) -> Option<u64> {
        (self.page_len != 0).then_some(self.page_base)
    }
}
";
    let file = out.join("aic_upg").join("storage.rs");
    fs::create_dir_all(file.parent().unwrap()).unwrap();
    fs::write(&file, text).unwrap();
    file
}
