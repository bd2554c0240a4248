//! Links libsatchelram.a, where the feature `archive` asks for it.

use std::env;
use std::path::Path;
use std::process::exit;

const FOLDER: &str = "SATCHELRAM_LIB_DIR";

/// Ends the build with what is wrong and what to do.
fn stop(wrong: &str) -> ! {
    eprintln!("{}", wrong);
    eprintln!("The feature `archive` links libsatchelram.a. Make it in the repository's root, and name its folder:");
    eprintln!("    ./archive.sh");
    eprintln!("    export {}=$PWD/target/staticlib", FOLDER);
    eprintln!("or build without the feature, which leaves the matcher alone. `bash host/run.sh target/staticlib` runs every test.");
    exit(1);
}

fn main() {
    println!("cargo:rerun-if-changed=build.rs");
    println!("cargo:rerun-if-env-changed={}", FOLDER);
    if env::var_os("CARGO_FEATURE_ARCHIVE").is_none() {
        return;
    }
    let folder = match env::var(FOLDER) {
        Ok(folder) => folder,
        Err(_) => stop(&format!("{} is not set.", FOLDER)),
    };
    let archive = Path::new(&folder).join("libsatchelram.a");
    if !archive.is_absolute() {
        stop(&format!("{}={} is not an absolute path.", FOLDER, folder));
    }
    if !archive.is_file() {
        stop(&format!("There is no {}.", archive.display()));
    }
    println!("cargo:rerun-if-changed={}", archive.display());
    println!("cargo:rustc-link-search=native={}", folder);
    println!("cargo:rustc-link-lib=static=satchelram");
}
