//! Links the proved library, which `rt lib` writes in crates/traceflow.
use std::path::Path;

fn main() {
    let root = Path::new(env!("CARGO_MANIFEST_DIR")).join("../..");
    let folder = root.join("crates/traceflow/out");
    let library = folder.join("libtraceflow.a");
    if !library.exists() {
        println!(
            "cargo::error=crates/traceflow/out/libtraceflow.a is missing: run `rt lib` in crates/traceflow"
        );
    }
    println!("cargo::rerun-if-changed={}", library.display());
    println!("cargo::rustc-link-search=native={}", folder.display());
    println!("cargo::rustc-link-lib=static=traceflow");
}
