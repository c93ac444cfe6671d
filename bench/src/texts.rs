//! Settings backups that are read and written, plain JSON texts all, made from a
//! fixed seed.

use super::race::Plan;
use j8_inputs::random::Random;

const SEED: u64 = 7;

/// The longest text that is read.
pub const LIMIT: usize = 32_768;

/// Texts that are read one behind another, so many that no branch predictor
/// learns them.
const IN_TURN: usize = 64;

/// What a text is made of: its head, its tail, and an entry of each number.
pub struct Kind {
    pub name: &'static str,
    head: &'static str,
    tail: &'static str,
    entry: fn(usize, &mut Random) -> String,
    /// The bytes of its longest text, which has 1,024 nodes at most.
    pub most: usize,
}

impl Kind {
    /// Comes to 1,024 nodes before it comes to the longest text.
    pub fn dense(&self) -> bool {
        self.most < LIMIT
    }

    /// Of a dense kind's rows: how many texts, and the bytes of each.
    pub fn rows(&self) -> [(usize, usize); 4] {
        [
            (1, 1_024),
            (1, self.most),
            (IN_TURN, 1_024),
            (IN_TURN, self.most.min(6_144)),
        ]
    }

    /// The text of a number, of `size` bytes or a few less.
    fn text(&self, size: usize, number: usize) -> Vec<u8> {
        let mut random = Random::of(SEED, number as u64);
        let mut text = self.head.to_string();
        for number in 0.. {
            let entry = (self.entry)(number, &mut random);
            if text.len() + entry.len() + self.tail.len() > size {
                break;
            }
            text += &entry;
        }
        text += self.tail;
        text.into_bytes()
    }
}

pub const KINDS: [Kind; 9] = [
    Kind {
        name: "settings",
        head: "{\n  \"model\": \"Office 2400\"",
        tail: "\n}\n",
        entry: |number, _| {
            let value = match number % 5 {
                0 => "true",
                1 => "15",
                2 => "null",
                3 => "\"automatic\"",
                _ => "0.75",
            };
            format!(",\n  \"network.wireless.interface_{number:04}.power_saving_timeout\": {value}")
        },
        most: LIMIT,
    },
    Kind {
        name: "strings",
        head: "{\n  \"folders\": [\n    null",
        tail: "\n  ]\n}\n",
        entry: |number, _| {
            format!(
                ",\n    {{\"name\": \"Marketing-Invoices_{number:04} of the second floor\", \
                 \"path\": \"scans/2024/Marketing-Invoices_{number:04}/Incoming/Letters-and-Bills/\
                 Checked/Paid\", \"note\": \"Zoë Müller looks after this folder every Monday \
                 morning; 東京 office has a copy\"}}"
            )
        },
        most: LIMIT,
    },
    Kind {
        name: "escapes",
        head: "{\n  \"folders\": [\n    null",
        tail: "\n  ]\n}\n",
        entry: |number, _| {
            format!(
                ",\n    {{\"name\": \"Marketing \\\"Invoices\\\" {number:04}\\tof the \\u0032nd \
                 floor\", \"path\": \"scans\\\\2024\\\\Marketing-Invoices_{number:04}\\\\Incoming\
                 \\\\Letters-and-Bills\\\\Paid\", \"note\": \"Zo\\u00eb M\\u00fcller looks after \
                 this folder\\nevery Monday \\ud83e\\udd26 morning\"}}"
            )
        },
        most: LIMIT,
    },
    Kind {
        name: "numbers",
        head: "{\n  \"calibration\": [\n    0",
        tail: "\n  ]\n}\n",
        entry: |number, _| {
            // Fifteen digits, which every reader of doubles takes by its short way.
            let (sign, whole) = (["", "-"][number % 2], 1_000 + number % 9_000);
            let exponent = number % 20;
            format!(",\n            {sign}{whole}.67890123{number:03}e-{exponent:02}")
        },
        most: LIMIT,
    },
    Kind {
        // Sixty of them in 7 KiB.
        name: "desks",
        head: "{\"printer\": {\"name\": \"Front desk\", \"model\": \"LQ-200\", \"sleep\": 30, \
               \"ports\": [9100, 631]}, \"desks\": [null",
        tail: "]}\n",
        entry: |number, random| {
            let (user, duplex) = (random.below(100), random.pick(&[true, false]));
            let quota = random.below(10_000);
            format!(
                ", {{\"name\": \"desk {number}\", \"Scan folder\": \"scans/user{user}/inbox\", \
                 \"mail\": \"u{user}@example.com\", \"duplex\": {duplex}, \"quota\": {quota}}}"
            )
        },
        most: 7_168,
    },
    Kind {
        name: "dicts",
        head: "[null",
        tail: "]\n",
        entry: |number, random| {
            let (enabled, width) = (random.pick(&[true, false]), random.below(1_000));
            format!(
                ",\n  {{\"id\": {number}, \"enabled\": {enabled}, \"width\": {width}, \
                 \"name\": \"desk {number}\", \"folder\": \"in/{number}\"}}"
            )
        },
        most: 7_168,
    },
    Kind {
        name: "compact",
        head: "{\"rows\":[null",
        tail: "]}",
        entry: |_, random| {
            let (x, y) = (random.below(100), random.below(10_000));
            let (on, tag) = (
                random.pick(&[true, false]),
                random.pick(&["red", "green", "blue"]),
            );
            format!(",{{\"x\":{x},\"y\":{y},\"on\":{on},\"tag\":\"{tag}\"}}")
        },
        most: 4_608,
    },
    Kind {
        name: "small numbers",
        head: "[0",
        tail: "]\n",
        entry: |_, random| {
            // Of four to seven digits, as many of each length.
            let least = random.pick(&[1_000, 10_000, 100_000, 1_000_000]);
            format!(", {}", least + random.below(9 * least))
        },
        most: 7_168,
    },
    Kind {
        name: "mixed",
        head: "{\"model\": \"Office 2400\"",
        tail: "}\n",
        entry: |number, random| {
            let name = name(random);
            format!(", \"{name}{number}\": {}", value(random, 2))
        },
        most: 7_168,
    },
];

/// The words that mixed settings are named by.
const WORDS: [&str; 32] = [
    "name", "model", "sleep", "ports", "duplex", "quota", "mail", "folder", "scan", "user",
    "inbox", "front", "desk", "speed", "mode", "width", "height", "id", "on", "off", "enabled",
    "timeout", "host", "path", "tray", "paper", "toner", "level", "color", "grey", "lang", "zone",
];

fn name(random: &mut Random) -> String {
    let words = random.pick(&[1, 1, 1, 2, 2, 3]);
    let words: Vec<&str> = (0..words).map(|_| random.pick(&WORDS)).collect();
    words.join("_")
}

/// Of mixed settings: a flag, a number, a string, or some of them in so many
/// brackets at most.
fn value(random: &mut Random, brackets: usize) -> String {
    match random.below(if brackets > 0 { 80 } else { 60 }) {
        0..=20 => {
            let below = random.pick(&[10, 100, 10_000, 100_000]);
            random.below(below).to_string()
        }
        21..=29 => random.pick(&["true", "false"]).into(),
        30..=32 => "null".into(),
        33..=35 => format!("{}.{:02}", random.below(10), random.below(100)),
        36..=43 => format!("\"{}\"", name(random)),
        44..=51 => format!("\"{} {}\"", name(random), random.below(100)),
        52..=59 => format!("\"scans/{}/inbox\"", name(random)),
        60..=69 => {
            let count = random.below(7);
            let members: Vec<String> = (0..count).map(|_| value(random, brackets - 1)).collect();
            format!("[{}]", members.join(", "))
        }
        _ => {
            // Words behind one another, so that no key stands twice.
            let (first, count) = (random.below(WORDS.len()), 1 + random.below(6));
            let pair = |number| {
                let key = WORDS[(first + number) % WORDS.len()];
                format!("\"{key}\": {}", value(random, brackets - 1))
            };
            let pairs: Vec<String> = (0..count).map(pair).collect();
            format!("{{{}}}", pairs.join(", "))
        }
    }
}

/// The names of all dense kinds, or of all others.
pub fn names(dense: bool) -> Vec<&'static str> {
    let of = KINDS.iter().filter(|kind| kind.dense() == dense);
    of.map(|kind| kind.name).collect()
}

pub fn kind(name: &str) -> &'static Kind {
    KINDS
        .iter()
        .find(|kind| kind.name == name)
        .expect("a kind of text")
}

/// The texts of a row.
pub fn texts_of(plan: Plan) -> Vec<Vec<u8>> {
    let kind = kind(plan.kind);
    (0..plan.texts)
        .map(|number| kind.text(plan.size, number))
        .collect()
}
