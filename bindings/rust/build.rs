//! Links the static library that `tools/build jigshard` writes.
use std::path::Path;
use std::process::exit;

fn main() {
    let package = Path::new(env!("CARGO_MANIFEST_DIR"));
    let top = package.ancestors().nth(2).unwrap_or(package);
    let folder = top.join("target/staticlib");
    let archive = folder.join("libjigshard.a");
    println!("cargo:rerun-if-changed={}", archive.display());
    if !archive.is_file() {
        eprintln!(
            "jigshard: {} is not there; 'tools/build jigshard' at the top of the repository makes it",
            archive.display()
        );
        exit(1);
    }
    println!("cargo:rustc-link-search=native={}", folder.display());
    println!("cargo:rustc-link-lib=static=jigshard");
}
