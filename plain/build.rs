//! Tells the linker where the archives are: in the folder that ARCHIVES names.

fn main() {
    println!("cargo:rerun-if-env-changed=ARCHIVES");
    println!("cargo:rerun-if-changed=build.rs");
    if let Ok(folder) = std::env::var("ARCHIVES") {
        println!("cargo:rerun-if-changed={folder}");
        println!("cargo:rustc-link-search=native={folder}");
    }
}
