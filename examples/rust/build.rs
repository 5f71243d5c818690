//! Links with librcds.a. The folder of the archive is RCDS_LIB (an absolute path, or one that
//! starts at this package), else target/staticlib of the repository.

use std::path::Path;

fn main() {
    let folder = std::env::var("RCDS_LIB").unwrap_or_else(|_| "../../target/staticlib".into());
    let package = std::env::var("CARGO_MANIFEST_DIR").expect("cargo names the package's folder");
    let folder = Path::new(&package).join(folder);
    println!("cargo:rerun-if-env-changed=RCDS_LIB");
    println!(
        "cargo:rerun-if-changed={}",
        folder.join("librcds.a").display()
    );
    println!("cargo:rustc-link-search=native={}", folder.display());
    println!("cargo:rustc-link-lib=static=rcds");
}
