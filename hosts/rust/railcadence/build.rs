//! Links the proved archive, whose folder the environment names.

use std::path::Path;
use std::{env, process};

const ARCHIVE: &str = "librailcadence_c.a";

fn fail(words: &str) -> ! {
    eprintln!(
        "{words}\nRun './archive' at the root of the repository, and set RAILCADENCE_LIB \
         to the absolute path of its folder build, where {ARCHIVE} then is."
    );
    process::exit(1)
}

fn main() {
    println!("cargo:rerun-if-env-changed=RAILCADENCE_LIB");
    let folder = env::var("RAILCADENCE_LIB")
        .unwrap_or_else(|_| fail("The environment variable RAILCADENCE_LIB is not set."));
    let archive = Path::new(&folder).join(ARCHIVE);
    if !archive.is_absolute() || !archive.is_file() {
        fail(&format!(
            "RAILCADENCE_LIB is '{folder}', which is not the absolute path of a folder with {ARCHIVE}."
        ));
    }
    println!("cargo:rerun-if-changed={}", archive.display());
    println!("cargo:rustc-link-search=native={folder}");
    println!("cargo:rustc-link-lib=static=railcadence_c");
}
