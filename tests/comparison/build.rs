//! Links the proved library, which `./build` writes.

fn main() {
    let folder = std::path::Path::new(env!("CARGO_MANIFEST_DIR")).join("../../target/staticlib");
    let archive = folder.join("liblink.a");
    if !archive.is_file() {
        eprintln!("{} is missing: run `./build` in the repository's root first", archive.display());
        std::process::exit(1);
    }
    println!("cargo:rerun-if-changed={}", archive.display());
    println!("cargo:rustc-link-search=native={}", folder.display());
    println!("cargo:rustc-link-lib=static=link");
}
