//! Links the library itself, for timing only. SHELF_LIB names the folder of libshelf_c.a, libsmall_c.a and libconsole_c.a;
//! without it, it is where `./build.sh` puts them.

use std::env;

fn main() {
    println!("cargo:rerun-if-env-changed=SHELF_LIB");
    if env::var_os("CARGO_FEATURE_NATIVE").is_none() {
        return;
    }
    let package = env::var("CARGO_MANIFEST_DIR").expect("cargo sets it");
    let folder = env::var("SHELF_LIB").unwrap_or_else(|_| format!("{package}/../target/staticlib"));
    println!("cargo:rustc-link-search=native={folder}");
    for archive in ["shelf_c", "small_c", "console_c"] {
        println!("cargo:rerun-if-changed={folder}/lib{archive}.a");
        println!("cargo:rustc-link-lib=static={archive}");
    }
}
