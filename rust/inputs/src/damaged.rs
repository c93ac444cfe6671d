//! A text with what becomes of it byte by byte, spliced and cut.

use crate::random::Random;

/// Longer texts are damaged in some places only.
const EACH: usize = 120;

/// The places of a text where something is done: all of a short one, some of a long
/// one.
fn places(random: &mut Random, length: usize) -> Vec<usize> {
    if length <= EACH {
        return (0..length).collect();
    }
    (0..6).map(|_| random.below(length)).collect()
}

/// The text itself; it at every cut; with each byte changed, left out or another put
/// before it; or spliced with another text and with itself. The tempting bytes are
/// those that mean something.
pub fn family(random: &mut Random, text: &[u8], other: &[u8], tempting: &[u8]) -> Vec<Vec<u8>> {
    let mut all = vec![text.to_vec()];
    match random.below(9) {
        0 => {
            for at in places(random, text.len()) {
                all.push(text[..at].to_vec());
            }
        }
        1 => {
            for at in places(random, text.len()) {
                let mut changed = text.to_vec();
                changed[at] = match random.below(3) {
                    0 => changed[at] ^ 1 << random.below(8),
                    1 => random.byte(),
                    _ => random.pick(tempting),
                };
                all.push(changed);
            }
        }
        2 => {
            for at in places(random, text.len()) {
                let mut shorter = text.to_vec();
                shorter.remove(at);
                all.push(shorter);
            }
        }
        3 => {
            for at in places(random, text.len() + 1) {
                let mut longer = text.to_vec();
                longer.insert(at, random.pick(tempting));
                all.push(longer);
            }
        }
        4 => {
            for _ in 0..6 {
                all.push(splice(random, text, other));
                all.push(splice(random, text, text));
            }
        }
        _ => {}
    }
    all
}

/// Any part of one text in place of any part of another.
fn splice(random: &mut Random, text: &[u8], other: &[u8]) -> Vec<u8> {
    let part = |random: &mut Random, length: usize| {
        let from = random.below(length + 1);
        let most = length - from;
        let most = if random.once_in(2) { most.min(8) } else { most };
        (from, from + random.below(most + 1))
    };
    let (from, to) = part(random, text.len());
    let (first, last) = part(random, other.len());
    [&text[..from], &other[first..last], &text[to..]].concat()
}
