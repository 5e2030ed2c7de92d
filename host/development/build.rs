// Tells the tests of the C and C++ programs in which folder the library lies that the package bannelgo links: BANNELGO_LIB_FOLDER.

fn main() {
    let folder = std::env::var("DEP_BANNELGO_FOLDER").expect("bannelgo's build script names it");
    println!("cargo:rustc-env=BANNELGO_LIB_FOLDER={folder}");
    println!("cargo:rerun-if-changed=build.rs");
}
