// The archive that `tools/archive` makes.
fn main() {
    let root = std::env::var("CARGO_MANIFEST_DIR").unwrap();
    println!("cargo:rustc-link-search=native={root}/../target/staticlib");
    println!("cargo:rustc-link-lib=static=m3ap");
    println!("cargo:rerun-if-changed={root}/../target/staticlib/libm3ap.a");
}
