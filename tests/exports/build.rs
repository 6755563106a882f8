use std::path::Path;

// Links the proved archives, and builds anew when one of them changes. MEDNUKALS_ARCHIVES names another folder of them.
fn main() {
    println!("cargo:rerun-if-env-changed=MEDNUKALS_ARCHIVES");
    let folder = std::env::var("MEDNUKALS_ARCHIVES").unwrap_or("build/lib".to_string());
    let lib = Path::new(env!("CARGO_MANIFEST_DIR")).join("../..").join(&folder);
    println!("cargo:rustc-link-search=native={}", lib.display());
    for name in ["mednukals", "mednukals_test"] {
        let archive = lib.join(format!("lib{name}.a"));
        assert!(archive.exists(), "{folder}/lib{name}.a is missing: run make lib first");
        println!("cargo:rerun-if-changed={}", archive.display());
        println!("cargo:rustc-link-lib=static={name}");
    }
}
