//! The files of tests/vectors.

/// A field of bytes: `-`, or parts joined by `.`, each hex or `hh*n`.
pub fn bytes(field: &str) -> Vec<u8> {
    let mut out = Vec::new();
    if field == "-" {
        return out;
    }
    for part in field.split('.') {
        let (hex, times) = match part.split_once('*') {
            Some((hex, times)) => (hex, times.parse().expect("a count")),
            None => (part, 1),
        };
        assert!(hex.len() % 2 == 0 && !hex.is_empty(), "part {part}");
        let once: Vec<u8> = (0..hex.len())
            .step_by(2)
            .map(|i| u8::from_str_radix(&hex[i..i + 2], 16).expect("hex digits"))
            .collect();
        out.extend(once.repeat(times));
    }
    out
}

/// Hands each case of a file to `run`, with its fields and where it stands.
pub fn each_case<const N: usize>(file: &str, run: impl Fn([&str; N], &str)) -> usize {
    let path = format!("{}/../tests/vectors/{file}", env!("CARGO_MANIFEST_DIR"));
    let content = std::fs::read_to_string(&path).unwrap_or_else(|e| panic!("{path}: {e}"));
    let mut cases = 0;
    for (index, line) in content.lines().enumerate() {
        if line.starts_with('#') || line.is_empty() {
            continue;
        }
        let what = format!("{file} line {}", index + 1);
        let fields: Vec<&str> = line.split(' ').collect();
        run(fields.try_into().expect(&what), &what);
        cases += 1;
    }
    println!("{file}: {cases} cases");
    cases
}
