//! Compiles `parse.rs` where it stands: the file of PARSE_RS. Besides, as a module of its own, a copy with `src/components.rs` behind it: what
//! the readers are compared and timed with stays as it is.
fn main() {
    let path = std::env::var("PARSE_RS").expect("PARSE_RS names the Rust's src/parse.rs");
    let out = std::env::var("OUT_DIR").unwrap();
    let components = std::fs::read_to_string(&path).unwrap() + include_str!("src/components.rs");
    std::fs::write(format!("{out}/components.rs"), components).unwrap();
    let modules = format!("#[path = {path:?}]\npub mod parse;\n#[path = \"{out}/components.rs\"]\npub mod components;\n");
    std::fs::write(format!("{out}/parse_at.rs"), modules).unwrap();
    println!("cargo:rerun-if-env-changed=PARSE_RS");
    println!("cargo:rerun-if-changed={path}");
    println!("cargo:rerun-if-changed=src/components.rs");
}
