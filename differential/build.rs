// Links the proved library, which `differential/run` makes.
fn main() {
    let root = std::path::Path::new(env!("CARGO_MANIFEST_DIR")).join("../crates/foreign/out");
    println!("cargo:rustc-link-search=native={}", root.display());
    println!("cargo:rustc-link-lib=static=foreign");
    println!("cargo:rerun-if-changed={}", root.join("libforeign.a").display());
}
