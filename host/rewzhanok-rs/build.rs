// Links the static libraries that the project builds at target/staticlib.
use std::path::Path;

fn main() {
    let here = std::env::var("CARGO_MANIFEST_DIR").expect("cargo sets it");
    let folder = Path::new(&here).join("../../target/staticlib");
    println!("cargo:rustc-link-search=native={}", folder.display());
    for name in ["rewzhanok", "rewzhanok_pools"] {
        let library = folder.join(format!("lib{name}.a"));
        if !library.exists() {
            println!("cargo:warning=target/staticlib/lib{name}.a is not built yet (host/archives)");
        }
        println!("cargo:rustc-link-lib=static={name}");
        println!("cargo:rerun-if-changed={}", library.display());
    }
}
