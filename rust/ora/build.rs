// Links the static library that `make library` writes.
use std::path::Path;
use std::process::exit;

fn main() {
    let folder = Path::new(env!("CARGO_MANIFEST_DIR")).join("../../target/staticlib");
    let library = folder.join("libcapi.a");
    println!("cargo:rerun-if-changed={}", library.display());
    if std::env::var("CARGO_CFG_TARGET_ARCH").as_deref() != Ok("x86_64") {
        eprintln!("ora: the static library is compiled for x86-64 alone");
        exit(1);
    }
    if !library.exists() {
        eprintln!("ora: target/staticlib/libcapi.a is missing: run `make library` first");
        exit(1);
    }
    println!("cargo:rustc-link-search=native={}", folder.display());
    println!("cargo:rustc-link-lib=static=capi");
}
