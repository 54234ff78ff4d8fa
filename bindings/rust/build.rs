// Links the archive that `rt lib` in crates/hatukeno writes.
fn main() {
    let here = std::env::var("CARGO_MANIFEST_DIR").expect("cargo sets it");
    println!("cargo:rustc-link-search=native={here}/../../crates/hatukeno/out");
    println!("cargo:rustc-link-lib=static=hatukeno");
    println!("cargo:rerun-if-changed={here}/../../crates/hatukeno/out/libhatukeno.a");
}
