// The crate's evaluation is private. Its own file src/plurals.rs, unchanged, is compiled here once more, from where `oracle/cargo` found the
// crate (GETTEXT_CRATE); where that is not said, the row beside it is left out.
use std::env;
use std::path::Path;

fn main() {
    println!("cargo:rerun-if-env-changed=GETTEXT_CRATE");
    println!("cargo:rustc-check-cfg=cfg(evaluation_alone)");
    let Some(folder) = env::var_os("GETTEXT_CRATE") else { return };
    let file = Path::new(&folder).join("src/plurals.rs");
    if file.is_file() {
        println!("cargo:rerun-if-changed={}", file.display());
        println!("cargo:rustc-env=GETTEXT_PLURALS={}", file.display());
        println!("cargo:rustc-cfg=evaluation_alone");
    }
}
