//! Links the program with librcds.a. The folder of the archive is RCDS_LIB (an absolute path, or
//! one that starts at this package), else target/staticlib of the repository.

use std::path::Path;

fn main() {
    let folder = std::env::var("RCDS_LIB").unwrap_or_else(|_| "../../target/staticlib".into());
    let package = std::env::var("CARGO_MANIFEST_DIR").expect("cargo names the package's folder");
    let archive = Path::new(&package).join(folder).join("librcds.a");
    println!("cargo:rerun-if-env-changed=RCDS_LIB");
    println!("cargo:rerun-if-changed={}", archive.display());
    println!("cargo:rustc-link-arg-bins={}", archive.display());
}
