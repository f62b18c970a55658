// Links the archive that host/library made.
fn main() {
    let root = std::env::var("CARGO_MANIFEST_DIR").unwrap();
    println!("cargo:rustc-link-search=native={}/../../target/host", root);
    println!("cargo:rustc-link-lib=static=zikombaru");
    println!("cargo:rerun-if-changed={}/../../target/host/libzikombaru.a", root);
}
