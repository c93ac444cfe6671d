//! The examples print what those for C do: the files `*.expected` of `examples/c`.
//! That of counter logs prints what the command does.

#[allow(dead_code)]
#[path = "../examples/counters.rs"]
mod counters;
#[allow(dead_code)]
#[path = "../examples/restore.rs"]
mod restore;
#[allow(dead_code)]
#[path = "../examples/upload.rs"]
mod upload;

/// A file of `examples/c`, by a path from there.
fn file(name: &str) -> Vec<u8> {
    let path = format!("{}/../examples/c/{name}", env!("CARGO_MANIFEST_DIR"));
    std::fs::read(&path).unwrap_or_else(|e| panic!("{path}: {e}"))
}

fn same(printed: &[u8], sample: &str) {
    let name = sample.rsplit('/').next().unwrap();
    let expected = file(&format!("{name}.expected"));
    let text = String::from_utf8_lossy;
    assert_eq!(text(printed), text(&expected), "{sample}");
}

#[test]
fn uploads() {
    for (sample, good) in [("folders.j8l", true), ("damaged.j8l", false)] {
        let backup = file(sample);
        for size in [1, 7, 1_460, 65_536] {
            let mut printed = Vec::new();
            let answer = upload::take_upload(backup.as_slice(), size, &mut printed);
            assert_eq!(answer.unwrap(), good, "{sample}");
            same(&printed, sample);
        }
    }
}

#[test]
fn restores() {
    for (sample, good) in [
        ("../../samples/settings.json8", true),
        ("damaged.json8", false),
        ("unfit.json8", false),
    ] {
        let mut printed = Vec::new();
        let answer = restore::run(file(sample).as_slice(), &mut printed);
        assert_eq!(answer.unwrap(), good, "{sample}");
        same(&printed, sample);
    }
}

#[test]
fn counter_logs() {
    let transcripts = String::from_utf8(file("../../tests/command/expected/tsv8")).unwrap();
    let mut samples = 0;
    for transcript in transcripts.split("$ j8 tsv8 ").skip(1) {
        let (sample, told) = transcript.split_once('\n').unwrap();
        let (told, status) = told.split_once("-- status ").unwrap();
        let mut printed = Vec::new();
        let accepted = counters::run(file(&format!("../../{sample}")).as_slice(), &mut printed);
        assert_eq!(accepted.unwrap(), status.starts_with('0'), "{sample}");
        let told = told.replace("-- standard error\n", "");
        assert_eq!(String::from_utf8(printed).unwrap(), told, "{sample}");
        samples += 1;
    }
    assert_eq!(samples, 5);
}
