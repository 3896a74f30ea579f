//! Links the library for C: that of the folder `THORIN_LIB`, else of the checkout that this crate lies in, both statically;
//! else the one that is installed.
use std::{env, path::Path};

fn main() {
    println!("cargo:rerun-if-env-changed=THORIN_LIB");
    let built = Path::new(&env::var("CARGO_MANIFEST_DIR").unwrap()).join("../../../lib");
    let named = env::var("THORIN_LIB").ok();
    let folder = named.or_else(|| built.join("libthorin.a").exists().then(|| built.display().to_string()));
    match folder {
        Some(folder) => {
            println!("cargo:rerun-if-changed={folder}/libthorin.a");
            println!("cargo:rustc-link-search=native={folder}");
            println!("cargo:rustc-link-lib=static=thorin");
        }
        None => {
            println!("cargo:rustc-link-search=native=/usr/local/lib");
            println!("cargo:rustc-link-lib=dylib=thorin");
        }
    }
}
