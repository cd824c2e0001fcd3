// Finds librelaypath.a: in the folder that RELAYPATH_LIB names, else in target/staticlib of the repository.
use std::env;
use std::path::PathBuf;
use std::process::exit;

fn folder() -> PathBuf {
    match env::var_os("RELAYPATH_LIB") {
        Some(named) => PathBuf::from(named),
        None => PathBuf::from(env!("CARGO_MANIFEST_DIR")).join("../../target/staticlib"),
    }
}

fn main() {
    println!("cargo:rerun-if-env-changed=RELAYPATH_LIB");
    let archive = folder().join("librelaypath.a");
    println!("cargo:rerun-if-changed={}", archive.display());
    let Ok(found) = archive.canonicalize() else {
        eprintln!("There is no {}.", archive.display());
        eprintln!("Run `tests/archive` at the top of the repository, or name the archive's folder in RELAYPATH_LIB.");
        exit(1);
    };
    let place = found.parent().expect("a file stands in a folder");
    println!("cargo:rustc-link-search=native={}", place.display());
    println!("cargo:rustc-link-lib=static=relaypath");
}
