// Links the port's static library: from the folder that GETTEXT_RATTLE_LIB names, else from where host/library leaves it.
use std::env;
use std::path::PathBuf;

fn main() {
    let folder = match env::var_os("GETTEXT_RATTLE_LIB") {
        Some(folder) => PathBuf::from(folder),
        None => PathBuf::from(env::var_os("CARGO_MANIFEST_DIR").unwrap()).join("../target/staticlib"),
    };
    println!("cargo:rerun-if-env-changed=GETTEXT_RATTLE_LIB");
    println!("cargo:rerun-if-changed={}", folder.join("libgettext_c.a").display());
    println!("cargo:rustc-link-search=native={}", folder.display());
    println!("cargo:rustc-link-lib=static=gettext_c");
}
