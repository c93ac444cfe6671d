//! Compiles the C and C++ peers if their packages are there, and the C file of
//! this library by several compilers if `make portable` has written it; without
//! them the benchmark runs with what is there. J8_BEFORE names another archive of
//! this library, an earlier one, that runs beside. Every function has a section of
//! its own, so that the linker can shuffle them.

use std::path::{Path, PathBuf};
use std::process::Command;

/// The functions of j8.h, which each build of the C file has under names of its own.
const FUNCTIONS: [&str; 12] = [
    "version",
    "sentence",
    "string_read",
    "string_write",
    "upload_fresh",
    "upload_feed",
    "upload_finish",
    "lines_write",
    "json8_read",
    "json8_show",
    "json8_write",
    "tsv8_read",
];

/// The C file as one builds it: the name of its table, the compiler and its options.
const BUILDS: [(&str, &str, &str); 3] = [
    ("gcc_o2", "gcc", "-O2"),
    ("gcc_o3", "gcc", "-O3"),
    ("clang_o2", "clang", "-O2"),
];

fn runs(command: &mut Command) -> bool {
    command.status().is_ok_and(|status| status.success())
}

/// Puts objects into an archive, which is linked.
fn link(folder: &Path, name: &str, objects: &[PathBuf]) -> bool {
    let archive = folder.join(format!("lib{name}.a"));
    let _ = std::fs::remove_file(&archive);
    let made = runs(Command::new("ar").arg("crs").arg(archive).args(objects));
    if made {
        println!("cargo:rustc-link-lib=static={name}");
    }
    made
}

fn peers(folder: &Path) -> bool {
    println!("cargo:rerun-if-changed=src/peers.cpp");
    let object = folder.join("peers.o");
    let flags = ["-O2", "-std=c++17", "-Wall", "-ffunction-sections"];
    let mut compile = Command::new("g++");
    compile.args(flags).args(["-c", "src/peers.cpp", "-o"]);
    runs(compile.arg(&object)) && link(folder, "peers", &[object])
}

/// Compiles a C file with the functions of j8.h under the names of a table.
fn compile(source: &Path, object: &Path, (table, compiler, level): (&str, &str, &str)) -> bool {
    let mut compile = Command::new(compiler);
    compile.args([
        "-std=c99",
        level,
        "-ffunction-sections",
        "-fPIC",
        "-I../include",
    ]);
    for function in FUNCTIONS {
        compile.arg(format!("-Dj8_{function}={table}_j8_{function}"));
    }
    compile.arg(format!("-DTABLE={table}"));
    runs(compile.arg("-c").arg(source).arg("-o").arg(object))
}

/// One build of the C file, with its table.
fn build(folder: &Path, file: &Path, one: (&str, &str, &str)) -> bool {
    let object = |source: &str| folder.join(format!("{}_{source}.o", one.0));
    let compiled = [(file, "j8"), (Path::new("src/library.c"), "library")]
        .map(|(source, name)| compile(source, &object(name), one));
    compiled == [true; 2] && link(folder, one.0, &[object("j8"), object("library")])
}

/// An archive with its functions under the names of a table, and the table.
fn rename(folder: &Path, archive: &str, table: &str) -> bool {
    let renamed = folder.join(format!("lib{table}_functions.a"));
    let mut objcopy = Command::new("objcopy");
    for function in FUNCTIONS {
        objcopy.arg(format!(
            "--redefine-sym=j8_{function}={table}_j8_{function}"
        ));
    }
    let object = folder.join(format!("{table}_library.o"));
    let made = runs(objcopy.arg(archive).arg(renamed))
        && compile(Path::new("src/library.c"), &object, (table, "gcc", "-O2"))
        && link(folder, table, &[object]);
    println!("cargo:rustc-link-lib=static={table}_functions");
    made
}

fn main() {
    println!("cargo:rustc-check-cfg=cfg(peers, gcc, clang, before)");
    println!("cargo:rerun-if-env-changed=J8_BEFORE");
    let folder = std::env::var("OUT_DIR").expect("cargo sets OUT_DIR");
    println!("cargo:rustc-link-search=native={folder}");
    let folder = Path::new(&folder);
    if peers(folder) {
        println!("cargo:rustc-cfg=peers");
        for library in ["simdjson", "yajl", "cjson", "stdc++"] {
            println!("cargo:rustc-link-lib={library}");
        }
    } else {
        println!("cargo:warning=no C and C++ peers: the README names their packages");
    }
    let file = Path::new("../target/portable/j8.c");
    for watched in [
        file,
        Path::new("src/library.c"),
        Path::new("../include/j8.h"),
    ] {
        println!("cargo:rerun-if-changed={}", watched.display());
    }
    let built = BUILDS.map(|one| file.exists() && build(folder, file, one));
    if built[0] && built[1] {
        println!("cargo:rustc-cfg=gcc");
    }
    if built[2] {
        println!("cargo:rustc-cfg=clang");
    }
    if let Ok(archive) = std::env::var("J8_BEFORE") {
        println!("cargo:rerun-if-changed={archive}");
        assert!(
            rename(folder, &archive, "before"),
            "{archive} is an archive of this library"
        );
        println!("cargo:rustc-cfg=before");
    }
    if built != [true; 3] {
        println!(
            "cargo:warning=not every build of the C file: make portable, gcc and clang make them"
        );
    }
}
