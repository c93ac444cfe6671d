//! Finds the library. J8_LIB_DIR names a folder that holds libj8.a, for whatever
//! target. Without it the repository's own is linked: for Linux on x86-64 the
//! archive ../target/staticlib/libj8.a, and for every other target the C file
//! ../target/portable/j8.c, compiled here. Each is made by the repository's build,
//! where `rt` is the Rattle toolchain, if it is missing or older than what it is
//! made of. J8_C_FILE names a C file instead, and J8_PORTABLE=1 takes the C file on
//! x86-64 too. A relative path counts from this crate's folder.

use std::collections::BTreeSet;
use std::path::{Path, PathBuf};
use std::process::{exit, Command};
use std::time::SystemTime;
use std::{env, fs};

/// Whether the archive is for a target: only the calling convention and the form
/// of the file matter.
pub fn has_archive(processor: &str, system: &str) -> bool {
    processor == "x86_64" && system == "linux"
}

/// The C compilers to try for a target, by the names that are in use: what CC_ and
/// the target, TARGET_CC or CC say, or else the one that Debian has for it.
pub fn compilers(target: &str, host: &str, set: impl Fn(&str) -> String) -> Vec<String> {
    let own = [
        format!("CC_{target}"),
        format!("CC_{}", target.replace('-', "_")),
        "TARGET_CC".to_string(),
        "CC".to_string(),
    ];
    if let Some(named) = own
        .iter()
        .map(|name| set(name))
        .find(|named| !named.is_empty())
    {
        return vec![named];
    }
    if target == host {
        return vec!["cc".to_string(), "gcc".to_string(), "clang".to_string()];
    }
    let parts: Vec<&str> = target.split('-').collect();
    let processor = match parts[0] {
        arm if arm.starts_with("arm") || arm.starts_with("thumb") => "arm",
        riscv if riscv.starts_with("riscv64") => "riscv64",
        other => other,
    };
    let system = match parts[..] {
        [_, "none", ..] => "none-eabi".to_string(),
        [_, _, "linux", kind] => format!("linux-{kind}"),
        _ => parts[1..].join("-"),
    };
    vec![format!("{processor}-{system}-gcc")]
}

/// The archiver that belongs to a compiler: aarch64-linux-gnu-ar to
/// aarch64-linux-gnu-gcc.
pub fn archiver(compiler: &str) -> String {
    match compiler.strip_suffix("-gcc") {
        Some(front) => format!("{front}-ar"),
        None => "ar".to_string(),
    }
}

/// A crate of the library and all that it stands on, by the lines of crates.txt:
/// a name, the word of a static library, a colon, and the names of those.
pub fn crates_below(lines: &str, name: &str) -> BTreeSet<String> {
    let mut found = BTreeSet::new();
    let mut open = vec![name];
    while let Some(name) = open.pop() {
        let line = lines.lines().find_map(|line| {
            let (crate_name, below) = line.split_once(':')?;
            (crate_name.split_whitespace().next() == Some(name)).then_some(below)
        });
        // The toolchain's own crates have no line.
        if let Some(below) = line {
            if found.insert(name.to_string()) {
                open.extend(below.split_whitespace());
            }
        }
    }
    found
}

/// The folders of the repository that the archive is made of.
pub fn sources(repository: &Path) -> Vec<PathBuf> {
    let Ok(lines) = fs::read_to_string(repository.join("crates.txt")) else {
        return Vec::new();
    };
    let crates = repository.join("crates");
    let parts = |name: String| ["src", "specs", "proofs"].map(|part| crates.join(&name).join(part));
    let mut paths: Vec<PathBuf> = ["j8", "j8_c"]
        .into_iter()
        .flat_map(|name| crates_below(&lines, name))
        .collect::<BTreeSet<String>>()
        .into_iter()
        .flat_map(parts)
        .collect();
    paths.retain(|path| path.is_dir());
    paths
}

/// When a file, or the newest one of a folder, was changed. A folder counts too: a
/// file may have gone.
fn changed(path: &Path) -> Option<SystemTime> {
    let own = fs::metadata(path).and_then(|data| data.modified()).ok();
    let inside = fs::read_dir(path).into_iter().flatten().flatten();
    inside
        .filter_map(|entry| changed(&entry.path()))
        .chain(own)
        .max()
}

/// The source that was changed after the archive was written, if there is one.
pub fn newer<'a>(archive: &Path, sources: &'a [PathBuf]) -> Option<&'a PathBuf> {
    let written = changed(archive);
    sources.iter().find(|source| changed(source) > written)
}

/// The linker's own message would not say what to do about it.
fn give_up(why: &str) -> ! {
    eprintln!("libj8.a can't be linked: {why}");
    eprintln!("Run `make archive portable` in the repository, or name the folder that holds libj8.a in J8_LIB_DIR.");
    exit(1);
}

/// Runs what makes a file of the repository. Where `rt` can't be run, an older
/// file serves, with a warning.
fn make(repository: &Path, file: &Path, words: &[&str], why: &str) {
    let rt = Command::new("rt").arg("version").output();
    if let Err(error) = rt {
        if !file.is_file() {
            give_up(&format!(
                "{why}, and `rt` can't be run to make it ({error})"
            ));
        }
        println!("cargo:warning={why}, and `rt` can't be run to make it anew ({error}): the older file is taken");
        return;
    }
    match Command::new(words[0])
        .args(&words[1..])
        .current_dir(repository)
        .output()
    {
        Ok(done) if done.status.success() => {}
        Ok(done) => {
            eprint!(
                "{}{}",
                String::from_utf8_lossy(&done.stdout),
                String::from_utf8_lossy(&done.stderr)
            );
            give_up(&format!("{why}, and `{}` failed", words.join(" ")));
        }
        Err(error) => give_up(&format!(
            "{why}, and `{}` can't be run ({error})",
            words.join(" ")
        )),
    }
}

/// A file below the repository's target/, made anew if it is missing or older than
/// a source.
fn made(repository: &Path, name: &str, others: &[&str], words: &[&str]) -> PathBuf {
    let file = repository.join(name);
    let mut sources = sources(repository);
    if sources.is_empty() {
        give_up("neither J8_LIB_DIR nor J8_C_FILE is set, and this crate doesn't stand in the library's repository");
    }
    sources.extend(others.iter().map(|other| repository.join(other)));
    println!(
        "cargo:rerun-if-changed={}",
        repository.join("crates.txt").display()
    );
    for source in &sources {
        println!("cargo:rerun-if-changed={}", source.display());
    }
    if !file.is_file() {
        make(
            repository,
            &file,
            words,
            &format!("the repository has no {name}"),
        );
    } else if let Some(source) = newer(&file, &sources) {
        make(
            repository,
            &file,
            words,
            &format!("{} is newer", source.display()),
        );
    }
    file
}

/// Compiles the C file for the target, to libj8.a in cargo's folder for it.
fn compiled(file: &Path, header: &Path, out: &Path) {
    let set = |name: &str| {
        println!("cargo:rerun-if-env-changed={name}");
        env::var(name).unwrap_or_default()
    };
    let (target, object) = (set("TARGET"), out.join("j8.o"));
    let tried = compilers(&target, &set("HOST"), set);
    let done = tried.iter().find(|compiler| {
        let mut command = Command::new(compiler);
        command
            .args(["-std=c99", "-O2", "-fPIC", "-ffunction-sections", "-I"])
            .arg(header);
        command
            .args(set("CFLAGS").split_whitespace())
            .arg("-c")
            .arg(file)
            .arg("-o")
            .arg(&object);
        command.status().is_ok_and(|status| status.success())
    });
    let Some(compiler) = done else {
        give_up(&format!("there is no archive for {target}, and {} didn't compile {}; CC names a C compiler for it", tried.join(", "), file.display()))
    };
    let archive = out.join("libj8.a");
    let _ = fs::remove_file(&archive);
    let named = [set("AR"), archiver(compiler), "ar".to_string()];
    let stored = named.iter().filter(|name| !name.is_empty()).any(|name| {
        Command::new(name)
            .arg("crs")
            .arg(&archive)
            .arg(&object)
            .status()
            .is_ok_and(|status| status.success())
    });
    if !stored {
        give_up("no ar puts j8.o into an archive; AR names one");
    }
}

/// The folder that holds libj8.a.
fn folder(home: &Path) -> PathBuf {
    let set = |name: &str| env::var(name).unwrap_or_default();
    if let Some(named) = env::var_os("J8_LIB_DIR") {
        let folder = home.join(named);
        if !folder.join("libj8.a").is_file() {
            give_up(&format!(
                "J8_LIB_DIR is {}, which doesn't have it",
                folder.display()
            ));
        }
        return folder;
    }
    let repository = home.join("..");
    let named = env::var_os("J8_C_FILE");
    let portable = named.is_some() || set("J8_PORTABLE") == "1";
    if !portable && has_archive(&set("CARGO_CFG_TARGET_ARCH"), &set("CARGO_CFG_TARGET_OS")) {
        let archive = made(
            &repository,
            "target/staticlib/libj8.a",
            &["tools/archive.sh", "tools/prove.sh"],
            &["bash", "tools/archive.sh", "j8", "j8_c"],
        );
        return archive.parent().expect("a folder").to_path_buf();
    }
    let file = named.map_or_else(
        || {
            made(
                &repository,
                "target/portable/j8.c",
                &["tools/portable", "include/j8.h"],
                &["bash", "tools/portable/make.sh"],
            )
        },
        |file| home.join(file),
    );
    println!("cargo:rerun-if-changed={}", file.display());
    let out = PathBuf::from(env::var_os("OUT_DIR").expect("cargo sets OUT_DIR"));
    compiled(&file, &repository.join("include"), &out);
    out
}

fn main() {
    for name in ["J8_LIB_DIR", "J8_C_FILE", "J8_PORTABLE"] {
        println!("cargo:rerun-if-env-changed={name}");
    }
    let home =
        PathBuf::from(env::var_os("CARGO_MANIFEST_DIR").expect("cargo sets CARGO_MANIFEST_DIR"));
    let folder = folder(&home);
    println!(
        "cargo:rerun-if-changed={}",
        folder.join("libj8.a").display()
    );
    println!("cargo:rustc-link-search=native={}", folder.display());
    println!("cargo:rustc-link-lib=static=j8");
}
