//! Links libhost.a, libhost_fields.a, libhost_unchecked.a and libhost_groups.a, which `bash prove host` and so on build: from the folder that
//! SCENES_LIB names, else from the repository's target/staticlib.
use std::env;
use std::path::PathBuf;

fn main() {
    let folder = match env::var_os("SCENES_LIB") {
        Some(folder) => PathBuf::from(folder),
        None => PathBuf::from(env::var_os("CARGO_MANIFEST_DIR").expect("cargo sets it")).join("../../target/staticlib"),
    };
    println!("cargo:rustc-link-search=native={}", folder.display());
    for name in ["host_groups", "host_unchecked", "host_fields", "host"] {
        println!("cargo:rustc-link-lib=static={name}");
        println!("cargo:rerun-if-changed={}", folder.join(format!("lib{name}.a")).display());
    }
    println!("cargo:rerun-if-env-changed=SCENES_LIB");
}
