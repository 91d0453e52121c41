// Links the archives that tests/archives writes of the crates frames_c, g709_c and exports.
use std::path::Path;

fn main() {
    let folder = Path::new(env!("CARGO_MANIFEST_DIR")).join("../../target/staticlib");
    println!("cargo:rustc-link-search=native={}", folder.display());
    for name in ["frames", "g709", "exports"] {
        let archive = folder.join(format!("lib{name}.a"));
        if !archive.exists() {
            panic!("there is no lib{name}.a: 'bash tests/archives {name}' proves and writes it");
        }
        println!("cargo:rerun-if-changed={}", archive.display());
        println!("cargo:rustc-link-lib=static={name}");
    }
}
