//! Links the archive that `rt lib` leaves in crates/yatesorrel_c.

use std::env;
use std::path::PathBuf;

fn main() {
    let here = PathBuf::from(env::var_os("CARGO_MANIFEST_DIR").unwrap_or_default());
    let standard = here.join("../../crates/yatesorrel_c/out");
    let folder = env::var_os("YATESORREL_LIB").map_or(standard, PathBuf::from);
    println!("cargo::rerun-if-env-changed=YATESORREL_LIB");
    println!("cargo::rerun-if-changed={}", folder.join("libyatesorrel_c.a").display());
    println!("cargo::rustc-link-search=native={}", folder.display());
    println!("cargo::rustc-link-lib=static=yatesorrel_c");
}
