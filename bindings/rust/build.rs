// Links the static library that `tools/staticlib` writes; KIND_CHECK_LIB names its folder where that is another.
use std::env;
use std::path::PathBuf;

fn main() {
    let folder = match env::var_os("KIND_CHECK_LIB") {
        Some(folder) => PathBuf::from(folder),
        None => PathBuf::from(env::var_os("CARGO_MANIFEST_DIR").unwrap()).join("../../target/staticlib"),
    };
    println!("cargo:rustc-link-search=native={}", folder.display());
    println!("cargo:rustc-link-lib=static=exports");
    println!("cargo:rerun-if-changed={}", folder.join("libexports.a").display());
    println!("cargo:rerun-if-env-changed=KIND_CHECK_LIB");
}
