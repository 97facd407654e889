// Links crates/exports/out/libexports.a, which `rt lib` writes there; with the feature `before` its copy and the other tree's, which `harness/bench root` makes.
fn main() {
    if std::env::var_os("CARGO_FEATURE_BEFORE").is_some() {
        link("target/harness/before", "exports");
        link("target/harness/before", "before");
    } else {
        link("crates/exports/out", "exports");
    }
}

/// Links a library of a folder of the repository.
fn link(folder: &str, name: &str) {
    let dir = std::env::var("CARGO_MANIFEST_DIR").unwrap();
    let lib = format!("{dir}/../../{folder}");
    println!("cargo:rustc-link-search=native={lib}");
    println!("cargo:rustc-link-lib=static={name}");
    println!("cargo:rerun-if-changed={lib}/lib{name}.a");
}
