// Links the static library libbannelgo.a, which holds the proved functions.
// BANNELGO_LIB names its folder, absolute or relative to this package; the default is ../../target/staticlib.
// A package that depends on this one finds the folder's name in DEP_BANNELGO_FOLDER while its own build script runs.

use std::path::{Path, PathBuf};

fn main() {
    let package = std::env::var("CARGO_MANIFEST_DIR").expect("cargo sets CARGO_MANIFEST_DIR");
    let package = Path::new(&package);
    let named = std::env::var("BANNELGO_LIB")
        .ok()
        .filter(|name| !name.is_empty());
    let folder: PathBuf = match &named {
        Some(named) => package.join(named),
        None => package.join("../../target/staticlib"),
    };
    let library = folder.join("libbannelgo.a");

    println!("cargo:rerun-if-env-changed=BANNELGO_LIB");
    println!("cargo:rerun-if-changed={}", library.display());
    if !library.is_file() {
        eprintln!("{} is missing", library.display());
        match named {
            Some(_) => eprintln!("BANNELGO_LIB names its folder"),
            None => eprintln!("build it at the root of the repository: bin/archive"),
        }
        std::process::exit(1);
    }
    println!("cargo:rustc-link-search=native={}", folder.display());
    println!("cargo:rustc-link-lib=static=bannelgo");
    println!("cargo:folder={}", folder.display());
}
