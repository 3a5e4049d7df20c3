//! Finds the archive `libchezumobari.a` and has it linked.

use std::env;
use std::path::PathBuf;

fn main() {
    println!("cargo:rerun-if-env-changed=CHEZUMOBARI_LIB_DIR");
    let folder = match env::var_os("CHEZUMOBARI_LIB_DIR") {
        Some(folder) => PathBuf::from(folder),
        None => built_here(),
    };
    let archive = folder.join("libchezumobari.a");
    println!("cargo:rerun-if-changed={}", archive.display());
    if !archive.is_file() {
        panic!(
            "{} is not there. Run tools/archive once, which builds it, or set CHEZUMOBARI_LIB_DIR to the folder that has libchezumobari.a",
            archive.display()
        );
    }
    println!("cargo:rustc-link-search=native={}", folder.display());
    println!("cargo:rustc-link-lib=static=chezumobari");
}

/// The folder that `tools/archive` writes the archive for this processor to.
fn built_here() -> PathBuf {
    let package = PathBuf::from(env::var_os("CARGO_MANIFEST_DIR").expect("cargo sets CARGO_MANIFEST_DIR"));
    let processor = env::var("CARGO_CFG_TARGET_ARCH").expect("cargo sets CARGO_CFG_TARGET_ARCH");
    package.join("../target/embed").join(processor)
}
