//! Compiles the gemmi side where a C++ compiler and gemmi's headers are at hand; the column of gemmi is `-` elsewhere.
//! Headers are looked for in /usr/include, or in the folder that GEMMI_INCLUDE names.

use std::env;
use std::path::Path;
use std::process::Command;

const SOURCE: &str = "src/gemmi.cpp";

fn main() {
    println!("cargo:rustc-check-cfg=cfg(gemmi)");
    println!("cargo:rerun-if-env-changed=GEMMI_INCLUDE");
    println!("cargo:rerun-if-changed={SOURCE}");
    let include = env::var("GEMMI_INCLUDE").unwrap_or("/usr/include".into());
    let header = Path::new(&include).join("gemmi/pdb.hpp");
    println!("cargo:rerun-if-changed={}", header.display());
    let folder = env::var("OUT_DIR").unwrap_or_default();
    // c++ compiles for this machine, which need not be the one that the benchmark is for.
    let here = env::var_os("TARGET") == env::var_os("HOST");
    if !here || !header.is_file() {
        return;
    }
    match compile(&include, &folder) {
        Some(library) => link(&folder, library),
        None => println!("cargo:warning=gemmi's headers are there, but {SOURCE} does not compile; it is left out"),
    }
}

/// Makes the archive, and tells the library that it needs beside it: none, or that of gemmi where the headers are not all.
fn compile(include: &str, folder: &str) -> Option<Option<&'static str>> {
    let object = format!("{folder}/gemmi.o");
    run("c++", &["-O2", "-fPIC", "-std=c++17", "-I", include, "-c", SOURCE, "-o", &object])?;
    run("ar", &["crs", &format!("{folder}/libgemmiside.a"), &object])?;
    [None, Some("gemmi_cpp")].into_iter().find(|library| links(&object, folder, *library))
}

/// Whether all names are found. A missing one would otherwise stop the build of the benchmark itself.
fn links(object: &str, folder: &str, library: Option<&str>) -> bool {
    let library = library.map(|name| format!("-l{name}"));
    let probe = format!("{folder}/probe.so");
    let mut words = vec!["-shared", "-Wl,--no-undefined", "-o", &probe, object];
    words.extend(library.as_deref());
    run("c++", &words).is_some()
}

fn run(program: &str, words: &[&str]) -> Option<()> {
    let output = Command::new(program).args(words).output().ok()?;
    output.status.success().then_some(())
}

fn link(folder: &str, library: Option<&str>) {
    println!("cargo:rustc-cfg=gemmi");
    println!("cargo:rustc-link-search=native={folder}");
    println!("cargo:rustc-link-lib=static=gemmiside");
    for name in library.into_iter().chain(["stdc++"]) {
        println!("cargo:rustc-link-lib=dylib={name}");
    }
}
