// Links the static library that `make bench` writes.
use std::path::Path;

fn main() {
    let folder = Path::new(env!("CARGO_MANIFEST_DIR")).join("../../target/staticlib");
    let library = folder.join("libbench_exports.a");
    println!("cargo:rerun-if-changed={}", library.display());
    if std::env::var("CARGO_CFG_TARGET_ARCH").as_deref() != Ok("x86_64") {
        panic!("bench: the static library is compiled for x86-64 alone");
    }
    if !library.exists() {
        panic!("bench: target/staticlib/libbench_exports.a is missing: run `make bench` first");
    }
    println!("cargo:rustc-link-search=native={}", folder.display());
    println!("cargo:rustc-link-lib=static=bench_exports");
}
