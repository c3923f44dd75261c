// Links the proved library, ../target/staticlib/libcapi.a, or the one in the folder that NAOMHRAL_LIB names.
use std::env;
use std::path::PathBuf;

fn main() {
    let repository = PathBuf::from(env::var("CARGO_MANIFEST_DIR").unwrap()).join("..");
    let folder = match env::var("NAOMHRAL_LIB") {
        Ok(folder) => PathBuf::from(folder),
        Err(_) => repository.join("target").join("staticlib"),
    };
    let archive = folder.join("libcapi.a");
    println!("cargo::rerun-if-env-changed=NAOMHRAL_LIB");
    println!("cargo::rerun-if-changed=build.rs");
    println!("cargo::rerun-if-changed={}", archive.display());
    if !archive.is_file() {
        println!("cargo::error=the proved library is not there: {} does not exist", archive.display());
        println!("cargo::error=make it first: run `tools/build capi` in the repository's top folder, then run cargo again");
        return;
    }
    println!("cargo::rustc-env=NAOMHRAL_ARCHIVE={}", archive.display());
    println!("cargo::rustc-link-search=native={}", folder.display());
    println!("cargo::rustc-link-lib=static=capi");
}
