// Tells the linker where the proved library is: HUNCHCOLD_LIBRARY, or target/staticlib of this repository.
use std::env;
use std::path::PathBuf;

fn main() {
    let home = PathBuf::from(env::var("CARGO_MANIFEST_DIR").expect("cargo sets it"));
    let usual = home.join("../../target/staticlib");
    let folder = env::var("HUNCHCOLD_LIBRARY").map(PathBuf::from).unwrap_or(usual);
    println!("cargo:rerun-if-env-changed=HUNCHCOLD_LIBRARY");
    println!("cargo:rerun-if-changed={}", folder.join("libport.a").display());
    println!("cargo:rustc-link-search=native={}", folder.display());
    println!("cargo:rustc-link-lib=static=port");
}
