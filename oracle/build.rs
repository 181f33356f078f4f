//! Links the static library that `bridge/library` wrote; OBOLCHIME_LIB_DIR names its folder.
fn main() {
    let folder = std::env::var("OBOLCHIME_LIB_DIR").expect("OBOLCHIME_LIB_DIR names the folder with libdesk.a");
    println!("cargo:rerun-if-env-changed=OBOLCHIME_LIB_DIR");
    println!("cargo:rerun-if-changed={folder}/libdesk.a");
    println!("cargo:rustc-link-search=native={folder}");
    println!("cargo:rustc-link-lib=static=desk");
}
