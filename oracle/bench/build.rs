//! Links the store's side: the static libraries that `tools/build` writes: those for C, and the port search.

use std::path::Path;

fn main() {
    let folder = Path::new(env!("CARGO_MANIFEST_DIR")).join("../../target/staticlib");
    println!("cargo::rustc-link-search=native={}", folder.display());
    for library in ["piecrag_c", "piecrag_c_voices", "piecrag_c_console", "piecrag_c_seal", "piecrag_c_read", "port_search"] {
        println!("cargo::rerun-if-changed={}", folder.join(format!("lib{library}.a")).display());
        println!("cargo::rustc-link-lib=static={library}");
    }
}
