//! Links the static library that the environment names, so that no path is written down here.

use std::env;
use std::path::PathBuf;
use std::process;

const VARIABLE: &str = "PERISTHOX_LIB_DIR";

fn main() {
    println!("cargo:rerun-if-env-changed={VARIABLE}");
    let Some(folder) = env::var_os(VARIABLE).map(PathBuf::from) else {
        fail("is not set; it names the folder that holds libperisthox.a");
    };
    // A build script runs in its own package's folder, where a relative name means something else
    // than it did to the caller.
    if !folder.is_absolute() {
        fail("must be an absolute path");
    }
    let library = folder.join("libperisthox.a");
    if !library.is_file() {
        fail(&format!(
            "names {}, where there is no libperisthox.a",
            folder.display()
        ));
    }
    println!("cargo:rerun-if-changed={}", library.display());
    println!("cargo:rustc-link-search=native={}", folder.display());
    println!("cargo:rustc-link-lib=static=peristhox");
}

fn fail(why: &str) -> ! {
    eprintln!("{VARIABLE} {why}");
    process::exit(1);
}
