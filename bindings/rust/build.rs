//! Links the static library: CEDAR_SCHEMA_FOLDER names the folder of libcedar_schema.a.
use std::env;

fn main() {
    println!("cargo:rerun-if-env-changed=CEDAR_SCHEMA_FOLDER");
    if let Ok(folder) = env::var("CEDAR_SCHEMA_FOLDER") {
        println!("cargo:rerun-if-changed={folder}/libcedar_schema.a");
        println!("cargo:rustc-link-search=native={folder}");
        println!("cargo:rustc-link-lib=static=cedar_schema");
    } else {
        println!("cargo:rustc-link-lib=dylib=cedar_schema");
    }
}
