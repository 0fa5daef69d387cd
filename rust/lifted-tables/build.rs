//! Uses the lifted text of the package lifted, and switches to the tables.
fn main() {
    println!("cargo:rerun-if-changed=build.rs");
    println!("cargo:rustc-env=LIFTED={}", std::env::var("DEP_LIFTED_TEXT_FOLDER").unwrap());
    println!("cargo:rustc-check-cfg=cfg(tables)");
    println!("cargo:rustc-cfg=tables");
}
