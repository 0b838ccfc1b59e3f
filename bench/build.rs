// Tells the linker where the Rattle library lies, if the package is built with the feature `rattle`.

use std::env;
use std::path::PathBuf;

fn main() {
    println!("cargo:rerun-if-env-changed=ROUTINE_BAY_LIB");
    if env::var_os("CARGO_FEATURE_RATTLE").is_none() {
        return;
    }
    let folder = env::var_os("ROUTINE_BAY_LIB").map_or_else(beside, PathBuf::from);
    println!("cargo:rerun-if-changed={}", folder.join("libroutine_bay.a").display());
    println!("cargo:rustc-link-search=native={}", folder.display());
}

fn beside() -> PathBuf {
    let here = env::var_os("CARGO_MANIFEST_DIR").map_or_else(PathBuf::new, PathBuf::from);
    here.join("../target/staticlib")
}
