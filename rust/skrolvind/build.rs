//! Links the static library, which is proved and built before this crate is.
use std::env;
use std::path::PathBuf;
use std::process::exit;

const VARIABLE: &str = "SKROLVIND_LIB";

fn main() {
    println!("cargo::rerun-if-env-changed={VARIABLE}");
    let here: PathBuf = env::var_os("CARGO_MANIFEST_DIR")
        .expect("cargo sets this variable")
        .into();
    let named = env::var_os(VARIABLE).unwrap_or_else(|| "../../target/staticlib".into());
    let folder = here.join(named);
    let library = folder.join("libskrolvind.a");
    println!("cargo::rerun-if-changed={}", library.display());
    if !library.is_file() {
        println!(
            "cargo::error=the static library {} is not there; build it first, or set {VARIABLE} to the folder that has it",
            library.display()
        );
        exit(1);
    }
    println!("cargo::rustc-link-search=native={}", folder.display());
    println!("cargo::rustc-link-lib=static=skrolvind");
}
