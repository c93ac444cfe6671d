//! What the build script goes by: the target, the crates that the archive is made
//! of, and which of their files is newer than it.

#[allow(dead_code)]
#[path = "../build.rs"]
mod build;

use std::fs::{create_dir_all, remove_dir_all, remove_file, write, File};
use std::path::Path;
use std::time::{Duration, SystemTime};

#[test]
fn targets() {
    assert!(build::has_archive("x86_64", "linux"));
    for (processor, system) in [
        ("aarch64", "linux"),
        ("x86_64", "windows"),
        ("x86", "linux"),
    ] {
        assert!(!build::has_archive(processor, system));
    }
}

#[test]
fn c_compilers() {
    let host = "x86_64-unknown-linux-gnu";
    let unset = |_: &str| String::new();
    for (target, compiler) in [
        ("aarch64-unknown-linux-gnu", "aarch64-linux-gnu-gcc"),
        ("armv7-unknown-linux-gnueabihf", "arm-linux-gnueabihf-gcc"),
        ("mips-unknown-linux-gnu", "mips-linux-gnu-gcc"),
        ("riscv64gc-unknown-linux-gnu", "riscv64-linux-gnu-gcc"),
        ("powerpc-unknown-linux-gnu", "powerpc-linux-gnu-gcc"),
        ("thumbv7m-none-eabi", "arm-none-eabi-gcc"),
    ] {
        assert_eq!(build::compilers(target, host, unset), [compiler]);
    }
    assert_eq!(build::compilers(host, host, unset)[0], "cc");
    let named = |name: &str| match name {
        "CC_aarch64_unknown_linux_gnu" => "first".to_string(),
        "CC" => "second".to_string(),
        _ => String::new(),
    };
    assert_eq!(
        build::compilers("aarch64-unknown-linux-gnu", host, named),
        ["first"]
    );
    assert_eq!(build::compilers(host, host, named), ["second"]);
    assert_eq!(
        build::archiver("aarch64-linux-gnu-gcc"),
        "aarch64-linux-gnu-ar"
    );
    assert_eq!(build::archiver("clang"), "ar");
}

#[test]
fn crates_that_the_archive_is_made_of() {
    let lines = "# a: z\nprelude:\nunits: prelude\nj8: units io\nj8_claims: j8\n";
    let below = build::crates_below(lines, "j8");
    assert_eq!(below.iter().collect::<Vec<_>>(), ["j8", "prelude", "units"]);
    // A static library's name has a word behind it.
    let lines = format!("{lines}j8_c staticlib: j8\n");
    let below = build::crates_below(&lines, "j8_c");
    assert_eq!(
        below.iter().collect::<Vec<_>>(),
        ["j8", "j8_c", "prelude", "units"]
    );
    // The repository's own list has the C interface and leaves the command out.
    let list = concat!(env!("CARGO_MANIFEST_DIR"), "/../crates.txt");
    let below = build::crates_below(&std::fs::read_to_string(list).unwrap(), "j8");
    assert!(below.contains("sentences") && below.contains("json8_read"));
    assert!(!below.contains("messages") && !below.contains("j8_claims"));
}

#[test]
fn newer_sources() {
    let repository = Path::new(env!("CARGO_TARGET_TMPDIR")).join("repository");
    let _ = remove_dir_all(&repository);
    let in_it = |name: &str| repository.join(name);
    for name in ["prelude", "j8", "command"] {
        create_dir_all(in_it("crates").join(name).join("src")).unwrap();
        write(in_it("crates").join(name).join("src/lib.rt"), name).unwrap();
    }
    write(in_it("crates.txt"), "prelude:\nj8: prelude\ncommand: j8\n").unwrap();
    let archive = in_it("libj8.a");
    let sources = build::sources(&repository);
    assert_eq!(sources.len(), 2);
    // None yet; then one that was written after all.
    assert!(build::newer(&archive, &sources).is_some());
    let at = |path: &Path, seconds| {
        let time = SystemTime::now() + Duration::from_secs(seconds);
        File::options()
            .append(true)
            .open(path)
            .unwrap()
            .set_modified(time)
            .unwrap();
    };
    write(&archive, "").unwrap();
    at(&archive, 100);
    assert_eq!(build::newer(&archive, &sources), None);
    at(&in_it("crates/command/src/lib.rt"), 200);
    assert_eq!(build::newer(&archive, &sources), None);
    at(&in_it("crates/prelude/src/lib.rt"), 200);
    assert_eq!(
        build::newer(&archive, &sources),
        Some(&in_it("crates/prelude/src"))
    );
    // No repository: nothing to build.
    remove_file(in_it("crates.txt")).unwrap();
    assert_eq!(build::sources(&repository).len(), 0);
}
