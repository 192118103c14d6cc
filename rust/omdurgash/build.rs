//! Finds the archive that `./desk library` writes and has it linked into this crate.
use std::env::var_os;
use std::path::PathBuf;
use std::process::exit;

/// Names another folder that holds the archive.
const ELSEWHERE: &str = "OMDURGASH_LIB_DIR";

/// The archive's folder: that which the environment names, or that of the repository which this package is in. Both are asked for at each
/// run and not built in: a copy of the repository links its own archive. A path that is not whole counts from the package's folder, as
/// cargo runs this there.
fn folder() -> PathBuf {
    let package = PathBuf::from(var_os("CARGO_MANIFEST_DIR").expect("cargo names the package's folder"));
    match var_os(ELSEWHERE) {
        Some(folder) if !folder.is_empty() => package.join(folder),
        _ => package.join("../../target/staticlib"),
    }
}

fn main() {
    let folder = folder();
    let archive = folder.join("libdesk.a");
    println!("cargo:rerun-if-env-changed={ELSEWHERE}");
    // Also while the archive is absent: cargo then runs this again each time.
    println!("cargo:rerun-if-changed={}", archive.display());
    if !archive.is_file() {
        eprintln!("There is no {}", archive.display());
        eprintln!("In the top folder of the repository of Omdurgash, run: ./desk library");
        eprintln!("If libdesk.a is elsewhere, have {ELSEWHERE} name the folder that holds it.");
        exit(1);
    }
    println!("cargo:rustc-link-search=native={}", folder.display());
    println!("cargo:rustc-link-lib=static=desk");
}
