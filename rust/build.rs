// Links the planner's static library, which `rt lib` writes in the crate sedge.
fn main() {
    let here = std::env::var("CARGO_MANIFEST_DIR").expect("cargo names the folder of the package");
    let library = format!("{here}/../crates/sedge/out");
    println!("cargo:rustc-link-search=native={library}");
    println!("cargo:rustc-link-lib=static=sedge");
    println!("cargo:rerun-if-changed={library}/libsedge.a");
}
