// Tells the linker where the product's static library stands, when the feature `product` is on.
// BENCH_ARCHIVE is the path of libNAME.a, or several such paths with ':' between them.

use std::env;
use std::path::Path;

fn main() {
    println!("cargo:rerun-if-env-changed=BENCH_ARCHIVE");
    println!("cargo:rerun-if-changed=build.rs");
    if env::var_os("CARGO_FEATURE_PRODUCT").is_none() {
        return;
    }
    let list = env::var("BENCH_ARCHIVE").expect("BENCH_ARCHIVE: the path of the product's libNAME.a");
    for text in list.split(':') {
        let path = Path::new(text).canonicalize().unwrap_or_else(|error| panic!("BENCH_ARCHIVE: {text}: {error}"));
        let folder = path.parent().expect("an archive stands in a folder");
        let stem = path.file_stem().and_then(|stem| stem.to_str()).unwrap_or("");
        let name = stem.strip_prefix("lib").expect("an archive's name is libNAME.a");
        println!("cargo:rerun-if-changed={}", path.display());
        println!("cargo:rustc-link-search=native={}", folder.display());
        println!("cargo:rustc-link-lib=static={name}");
    }
}
