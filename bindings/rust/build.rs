//! Says where libgoqhari.a is looked for: in the folder that GOQHARI_LIB names, or where `make lib` puts it.

use std::env;
use std::path::Path;

fn main() {
    let here = env::var("CARGO_MANIFEST_DIR").unwrap_or_default();
    let lib = env::var("GOQHARI_LIB").unwrap_or_else(|_| format!("{here}/../../build"));
    let archive = Path::new(&lib).join("libgoqhari.a");
    println!("cargo:rerun-if-env-changed=GOQHARI_LIB");
    println!("cargo:rerun-if-changed={}", archive.display());
    println!("cargo:rustc-link-search=native={lib}");
    if !archive.exists() {
        println!("cargo:warning=no {}: make it with `make lib`, or name its folder in GOQHARI_LIB", archive.display());
    }
}
