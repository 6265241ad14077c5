//! Says where libberduzhika.a is: in the folder that BERDUZHIKA_LIB names, or where `rt lib` writes it in `crates/berduzhika`.
use std::env;
use std::path::{Path, PathBuf};

fn folder() -> PathBuf {
    match env::var_os("BERDUZHIKA_LIB") {
        Some(folder) => PathBuf::from(folder),
        None => Path::new(env!("CARGO_MANIFEST_DIR")).join("../crates/berduzhika/out"),
    }
}

fn main() {
    println!("cargo:rerun-if-env-changed=BERDUZHIKA_LIB");
    let folder = folder();
    let archive = folder.join("libberduzhika.a");
    println!("cargo:rerun-if-changed={}", archive.display());
    assert!(
        archive.is_file(),
        "no libberduzhika.a in {}: run `rt lib` in crates/berduzhika, or set BERDUZHIKA_LIB to the folder that has it",
        folder.display()
    );
    if env::var("CARGO_CFG_TARGET_ARCH").as_deref() != Ok("x86_64") {
        println!("cargo:warning=the proved libberduzhika.a is for x86-64 only");
    }
    println!("cargo:rustc-link-search=native={}", folder.display());
    println!("cargo:rustc-link-lib=static=berduzhika");
}
