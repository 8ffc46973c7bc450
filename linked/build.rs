//! Links the archives that `tools/static_library.sh` writes, one a crate: linked/libCRATE.a.

use std::path::Path;

const CRATES: [&str; 5] = ["capi", "capi_words", "capi_sheet", "capi_group", "group_row"];

fn main() {
    let folder = std::env::var("CARGO_MANIFEST_DIR").expect("cargo names the package's folder");
    println!("cargo:rustc-link-search=native={folder}");
    let mut missing = false;
    for name in CRATES {
        println!("cargo:rerun-if-changed=lib{name}.a");
        println!("cargo:rustc-link-lib=static={name}");
        if !Path::new(&folder).join(format!("lib{name}.a")).is_file() {
            eprintln!("linked/lib{name}.a is missing. In the repository's folder, run:");
            eprintln!("    tools/static_library.sh {name} linked/lib{name}.a");
            missing = true;
        }
    }
    if missing {
        std::process::exit(1);
    }
}
