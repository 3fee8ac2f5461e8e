// Links libdstm.a from the folder that DSTM_LIB names; that is `c/out`, where it is not told.
fn main() {
    println!("cargo:rerun-if-env-changed=DSTM_LIB");
    let folder = std::env::var("DSTM_LIB").unwrap_or_else(|_| format!("{}/../out", env!("CARGO_MANIFEST_DIR")));
    if !std::path::Path::new(&folder).join("libdstm.a").is_file() {
        println!("cargo:warning=there is no libdstm.a in {folder}: python3 c/make.py builds it, or DSTM_LIB names its folder");
    }
    println!("cargo:rustc-link-search=native={folder}");
    println!("cargo:rustc-link-lib=static=dstm");
    println!("cargo:rerun-if-changed={folder}/libdstm.a");
}
