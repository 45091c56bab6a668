//! Links libexport.a and libexport_train.a from the folder that CAUSEYLARK_LIB names, or from target/native of this
//! repository, where `tools/native-staticlib export` and `tools/native-staticlib export_train` write them.

use std::env;
use std::path::Path;

fn main() {
    let own = || {
        let here = env::var("CARGO_MANIFEST_DIR").expect("cargo names the crate's folder");
        Path::new(&here)
            .join("../../target/native")
            .display()
            .to_string()
    };
    let folder = env::var("CAUSEYLARK_LIB").unwrap_or_else(|_| own());
    println!("cargo:rerun-if-env-changed=CAUSEYLARK_LIB");
    println!("cargo:rustc-link-search=native={folder}");
    for library in ["export", "export_train"] {
        println!("cargo:rerun-if-changed={folder}/lib{library}.a");
        println!("cargo:rustc-link-lib=static={library}");
    }
}
