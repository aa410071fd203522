// Finds the Rust original and the static libraries: ASSEMBLER_RS names the one, LAGVETTU_LIB the folder of the others.
use std::{env, fs, path::PathBuf};

fn main() {
    let here = PathBuf::from(env::var("CARGO_MANIFEST_DIR").unwrap());
    let original = env::var("ASSEMBLER_RS")
        .map(PathBuf::from)
        .unwrap_or_else(|_| here.join("../../shared/docs/src/src/assembler.rs"));
    let original = fs::canonicalize(&original)
        .unwrap_or_else(|e| panic!("the Rust original, {}: {e}; set ASSEMBLER_RS", original.display()));
    let out = PathBuf::from(env::var("OUT_DIR").unwrap());
    fs::write(
        out.join("original.rs"),
        format!("#[path = {:?}]\n#[allow(dead_code, unused_variables)]\npub mod original;\n", original),
    )
    .unwrap();
    println!("cargo:rerun-if-env-changed=ASSEMBLER_RS");
    println!("cargo:rerun-if-env-changed=LAGVETTU_LIB");
    println!("cargo:rerun-if-changed={}", original.display());
    let library = env::var("LAGVETTU_LIB")
        .map(PathBuf::from)
        .unwrap_or_else(|_| here.join("../target/staticlib"));
    let archives = ["lagvettu", "lagvettu_tools", "lagvettu_manual", "lagvettu_branches", "lagvettu_sheet"].map(|name| (name, library.join(format!("lib{name}.a"))));
    if archives.iter().all(|(_, file)| file.exists()) {
        println!("cargo:rustc-link-search=native={}", library.display());
        println!("cargo:rustc-cfg=linked");
    }
    for (name, file) in archives {
        if file.exists() {
            println!("cargo:rustc-link-lib=static={name}");
        }
        println!("cargo:rerun-if-changed={}", file.display());
    }
    println!("cargo:rustc-check-cfg=cfg(linked)");
}
