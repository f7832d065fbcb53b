// Links the static library that `bindings/library` writes.
use std::path::Path;

fn main() {
    let root = std::env::var("CARGO_MANIFEST_DIR").expect("cargo sets CARGO_MANIFEST_DIR");
    let folder = Path::new(&root).join("../../target/staticlib");
    let library = folder.join("libexports.a");
    println!("cargo:rerun-if-changed={}", library.display());
    println!("cargo:rerun-if-env-changed=ASPDRUPE_UNLINKED");
    // Lints link nothing: `./test` runs them while the library is built.
    let is_linked = std::env::var_os("ASPDRUPE_UNLINKED").is_none();
    if is_linked && !library.is_file() {
        eprintln!("{} is missing: run `bindings/library` in the repository's root first.", library.display());
        std::process::exit(1);
    }
    println!("cargo:rustc-link-search=native={}", folder.display());
    println!("cargo:rustc-link-lib=static=exports");
}
