// Links the archive that `tools/archive` writes. UJTHANOR_LIB names another folder that holds libujthanor.a.
use std::env;
use std::path::PathBuf;

fn main() {
    let here = PathBuf::from(env::var("CARGO_MANIFEST_DIR").unwrap());
    let folder = match env::var("UJTHANOR_LIB") {
        Ok(path) => PathBuf::from(path),
        Err(_) => here.join("../../target/staticlib"),
    };
    let folder = folder
        .canonicalize()
        .expect("no libujthanor.a: run `tools/archive` first");
    println!("cargo:rustc-link-search=native={}", folder.display());
    println!("cargo:rustc-link-lib=static=ujthanor");
    println!(
        "cargo:rerun-if-changed={}",
        folder.join("libujthanor.a").display()
    );
    println!("cargo:rerun-if-env-changed=UJTHANOR_LIB");
}
