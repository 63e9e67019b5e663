// Finds the static library: in the folder that GETTEXT_RATTLE_LIB names, or where host/library writes it.
use std::env;
use std::path::PathBuf;

fn main() {
    println!("cargo:rerun-if-env-changed=GETTEXT_RATTLE_LIB");
    let folder = match env::var_os("GETTEXT_RATTLE_LIB") {
        Some(folder) => PathBuf::from(folder),
        None => {
            PathBuf::from(env::var_os("CARGO_MANIFEST_DIR").unwrap()).join("../../target/staticlib")
        }
    };
    let library = folder.join("libgettext_c.a");
    println!("cargo:rerun-if-changed={}", library.display());
    // `cargo check` and `cargo doc` need no library: only what is linked does, and rustc then stops
    if !library.is_file() {
        println!(
            "cargo:warning=there is no {}, so nothing can be linked:",
            library.display()
        );
        println!("cargo:warning=run host/library in the repository, or name the library's folder in GETTEXT_RATTLE_LIB");
    }
    println!("cargo:rustc-link-search=native={}", folder.display());
    println!("cargo:rustc-link-lib=static=gettext_c");
}
