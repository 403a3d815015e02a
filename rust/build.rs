//! Links libwarc.a, from the folder that `ZOGWEDU_LIB` names, or from `out/lib`, where `make lib` puts it.
use std::env;
use std::path::PathBuf;

fn main() {
    println!("cargo:rerun-if-env-changed=ZOGWEDU_LIB");
    let top = PathBuf::from(env::var_os("CARGO_MANIFEST_DIR").unwrap_or_default());
    let folder = env::var_os("ZOGWEDU_LIB").map_or_else(|| top.join("../out/lib"), PathBuf::from);
    let library = folder.join("libwarc.a");
    println!("cargo:rerun-if-changed={}", library.display());
    if !library.is_file() {
        let path = library.display();
        eprintln!("\nzogwedu needs the library {path}, which isn't there. Run `make lib` at the top of its");
        eprintln!("repository, or name the folder of a libwarc.a in the environment variable ZOGWEDU_LIB.\n");
        std::process::exit(1);
    }
    println!("cargo:rustc-link-search=native={}", folder.display());
    println!("cargo:rustc-link-lib=static=warc");
}
