// Links libpotirehu.a, from the folder POTIREHU_LIB or from the repository's target/staticlib.
use std::path::{Path, PathBuf};
use std::{env, process};

fn main() {
    println!("cargo:rerun-if-changed=build.rs");
    println!("cargo:rerun-if-env-changed=POTIREHU_LIB");
    let crate_folder = env::var_os("CARGO_MANIFEST_DIR").expect("cargo sets it");
    let folder = match env::var_os("POTIREHU_LIB") {
        Some(folder) => PathBuf::from(folder),
        None => Path::new(&crate_folder).join("../../target/staticlib"),
    };
    let library = folder.join("libpotirehu.a");
    println!("cargo:rerun-if-changed={}", library.display());
    if !library.is_file() {
        eprintln!(
            "There is no {}: run `scripts/staticlib potirehu` in the root of the repository, or set POTIREHU_LIB to the folder that has libpotirehu.a.",
            library.display()
        );
        process::exit(1);
    }
    // A relative folder would be read anew where a dependent crate is linked.
    let folder = folder.canonicalize().unwrap_or(folder);
    println!("cargo:rustc-link-search=native={}", folder.display());
    println!("cargo:rustc-link-lib=static=potirehu");
}
