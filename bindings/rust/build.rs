//! Links the library for C: from the folder that REGRESS_LIB_DIR names, else from that of the repository, else from the system.
use std::env;
use std::path::PathBuf;

fn main() {
    println!("cargo:rerun-if-env-changed=REGRESS_LIB_DIR");
    let of_repository = PathBuf::from(env::var("CARGO_MANIFEST_DIR").unwrap()).join("../c/out");
    let named = env::var_os("REGRESS_LIB_DIR").map(PathBuf::from);
    let folder = named.or_else(|| of_repository.canonicalize().ok());
    let Some(folder) = folder else {
        println!("cargo:rustc-link-lib=regress");
        return;
    };
    println!("cargo:rustc-link-search=native={}", folder.display());
    println!("cargo:rerun-if-changed={}", folder.display());
    if folder.join("libregress.a").exists() {
        println!("cargo:rustc-link-lib=static=regress");
    } else {
        println!("cargo:rustc-link-lib=dylib=regress");
        println!("cargo:rustc-link-arg=-Wl,-rpath,{}", folder.display());
    }
}
