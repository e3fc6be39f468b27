//! Links libstation.a from the folder that the environment variable STATION_LIB names.

use std::path::Path;

fn main() {
    println!("cargo:rerun-if-env-changed=STATION_LIB");
    let Some(folder) = std::env::var_os("STATION_LIB") else {
        eprintln!("STATION_LIB is not set; it names the folder that has libstation.a (see hosts/rust/README.md).");
        std::process::exit(1);
    };
    let library = Path::new(&folder).join("libstation.a");
    if !library.is_absolute() {
        eprintln!("STATION_LIB has to be an absolute path: {}", Path::new(&folder).display());
        std::process::exit(1);
    }
    if !library.is_file() {
        eprintln!("STATION_LIB names a folder without libstation.a: {}", library.display());
        std::process::exit(1);
    }
    println!("cargo:rerun-if-changed={}", library.display());
    println!("cargo:rustc-link-search=native={}", Path::new(&folder).display());
    println!("cargo:rustc-link-lib=static:-bundle=station");
}
