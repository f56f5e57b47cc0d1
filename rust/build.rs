// Where `tools/host build` puts the archive.
fn main() {
    let here = std::env::var("CARGO_MANIFEST_DIR").expect("cargo says where the package is");
    println!("cargo:rustc-link-search=native={}/../target/staticlib", here);
    println!("cargo:rerun-if-changed={}/../target/staticlib/libdoorhawser.a", here);
}
