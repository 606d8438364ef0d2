//! Links the delivered library from the folder that CULLPETHI_LIB names.
fn main() {
    println!("cargo:rerun-if-env-changed=CULLPETHI_LIB");
    if let Ok(folder) = std::env::var("CULLPETHI_LIB") {
        println!("cargo:rerun-if-changed={folder}/libcullpethi.a");
        println!("cargo:rustc-link-search=native={folder}");
        println!("cargo:rustc-link-lib=static=cullpethi");
    }
}
