// Links the proved library, which `rt lib` has built in its crate.
fn main() {
    let library = "../crates/govdrez_c/out";
    println!("cargo:rustc-link-search=native={library}");
    println!("cargo:rustc-link-lib=static=govdrez_c");
    println!("cargo:rerun-if-changed={library}/libgovdrez_c.a");
}
