//! Finds the original files where they lie, checks that each is the very file that was carried over, and names it to the crate
//! as a module: nothing of it is copied or changed.
mod sha256;

use std::path::{Path, PathBuf};
use std::process::exit;
use std::{env, fs};

const VARIABLE: &str = "SKROLVIND_RUST_SOURCE";

/// The module's name, the file, and its SHA-256.
const FILES: [(&str, &str, &str); 4] = [
    (
        "status",
        "src/dtc/status.rs",
        "af39ced9df1ee2649d4f9e0e6f223068a719701e01f1397f454ea9cfc44c9a50",
    ),
    (
        "routine_control",
        "src/services/routine_control.rs",
        "e7641942a5cf4dcbed8cd1e70ada5fc9ad60e64e79b454705fa42d3b36d0147a",
    ),
    (
        "request_file_transfer",
        "src/services/request_file_transfer.rs",
        "53597f22de812263ae8c646f8703741a90b338631f8c08aa4b4861adea3a8c0f",
    ),
    (
        "format_identifiers",
        "src/shared/format_identifiers.rs",
        "edf4995498a777f20229b11f29ebc1ef205878b1cc3a2031fec9a2e7d11de0c7",
    ),
];

fn main() {
    println!("cargo::rerun-if-env-changed={VARIABLE}");
    println!("cargo::rerun-if-changed=build");
    let folder = source_folder();
    let out = variable("OUT_DIR");
    for (module, file, hash) in FILES {
        let path = pinned(&folder, file, hash);
        let text = format!("#[path = {path:?}]\npub mod {module};\n");
        fs::write(out.join(format!("{module}.rs")), text).expect("OUT_DIR can be written");
    }
}

/// The folder that the variable names, from the repository's root.
fn source_folder() -> PathBuf {
    let root = variable("CARGO_MANIFEST_DIR").join("../..");
    let named = env::var_os(VARIABLE).unwrap_or_else(|| "../shared/docs/src".into());
    root.join(named)
}

fn variable(name: &str) -> PathBuf {
    env::var_os(name).expect("cargo sets this variable").into()
}

/// The file's path, once it is found to be the one that was carried over.
fn pinned(folder: &Path, file: &str, hash: &str) -> PathBuf {
    let path = folder.join(file);
    println!("cargo::rerun-if-changed={}", path.display());
    let Ok(bytes) = fs::read(&path) else {
        stop(&format!(
            "the original file {} is not there; set {VARIABLE} to the folder of luminartech/uds_protocol at 17bdd13a4e that has {file}",
            path.display()
        ))
    };
    let found = sha256::sha256(&bytes);
    if found != hash {
        stop(&format!(
            "the file {} is not the one that was carried over: its SHA-256 is {found}, not {hash}",
            path.display()
        ))
    }
    fs::canonicalize(path).expect("a file that was read has a path")
}

fn stop(sentence: &str) -> ! {
    println!("cargo::error={sentence}");
    exit(1)
}
