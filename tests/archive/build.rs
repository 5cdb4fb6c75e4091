//! Links the archive to the program `damage` and to nothing else.

use std::env;
use std::path::Path;

const DEFAULT: &str = "../../target/staticlib/libembed.a";

fn main() {
    println!("cargo:rerun-if-env-changed=ARCHIVE");
    if env::var_os("CARGO_FEATURE_LINKED").is_none() {
        return;
    }
    let package = env::var("CARGO_MANIFEST_DIR").expect("cargo names the package's folder");
    let archive = Path::new(&package).join(env::var("ARCHIVE").unwrap_or(DEFAULT.to_string()));
    println!("cargo:rerun-if-changed={}", archive.display());
    println!("cargo:rustc-link-arg-bin=damage={}", archive.display());
}
