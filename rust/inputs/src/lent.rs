//! Buffers that are watched on every side.

/// Bytes or numbers on each side of a lent part, at least.
const MARGIN: usize = 32;

/// What a buffer may hold.
pub trait Item: Copy + PartialEq {
    /// Differs from place to place; `flip` turns every bit of it, so that
    /// nothing can hide by being what the pattern has.
    fn pattern(place: usize, flip: bool) -> Self;
}

impl Item for u8 {
    fn pattern(place: usize, flip: bool) -> u8 {
        (place as u8).wrapping_mul(37) ^ if flip { u8::MAX } else { 0 }
    }
}

impl Item for u32 {
    fn pattern(place: usize, flip: bool) -> u32 {
        (place as u32).wrapping_mul(0x9e37_79b9) ^ if flip { u32::MAX } else { 0 }
    }
}

/// A part with its margins, which are in a pattern.
#[derive(Clone, Debug, PartialEq)]
pub struct Lent<T> {
    whole: Vec<T>,
    before: usize,
    flip: bool,
}

impl<T: Item> Lent<T> {
    /// A part of so many items, in the pattern too.
    pub fn new(room: usize, flip: bool) -> Lent<T> {
        let whole = (0..room + 2 * MARGIN).map(|i| T::pattern(i, flip));
        Lent {
            whole: whole.collect(),
            before: MARGIN,
            flip,
        }
    }

    /// A part of these items, so many items further on than others: a part may stand
    /// anywhere.
    pub fn of(items: &[T], shift: usize, flip: bool) -> Lent<T> {
        let before = MARGIN + shift;
        let length = before + items.len() + MARGIN;
        let mut whole = Vec::with_capacity(length);
        whole.extend((0..before).map(|i| T::pattern(i, flip)));
        whole.extend_from_slice(items);
        whole.extend((length - MARGIN..length).map(|i| T::pattern(i, flip)));
        Lent {
            whole,
            before,
            flip,
        }
    }

    pub fn part(&mut self) -> &mut [T] {
        let end = self.whole.len() - MARGIN;
        &mut self.whole[self.before..end]
    }

    /// What the part holds.
    pub fn items(&self) -> &[T] {
        &self.whole[self.before..self.whole.len() - MARGIN]
    }

    /// Whether the part begins with these and all else is the pattern.
    pub fn holds(&self, items: &[T]) -> bool {
        let behind = self.before + items.len();
        behind + MARGIN <= self.whole.len()
            && self.whole[self.before..behind] == *items
            && self.is_pattern(0..self.before)
            && self.is_pattern(behind..self.whole.len())
    }

    /// Whether the part holds just these and the margins are the pattern.
    pub fn is(&self, items: &[T]) -> bool {
        // A part that is only read was lent as such, and the compiler may take it that
        // nothing has changed. So it is told to look again.
        let now = std::hint::black_box(self);
        now.items() == items
            && now.is_pattern(0..now.before)
            && now.is_pattern(now.whole.len() - MARGIN..now.whole.len())
    }

    /// How many items differ from those of a copy, the place of the first in the part, less
    /// than 0 before it, and the items of both from there on.
    pub fn difference<'a>(
        &'a self,
        other: &'a Lent<T>,
    ) -> Option<(usize, isize, &'a [T], &'a [T])> {
        let pairs = || self.whole.iter().zip(&other.whole);
        let first = pairs().position(|(one, other)| one != other)?;
        let count = pairs().filter(|(one, other)| one != other).count();
        let place = first as isize - self.before as isize;
        Some((count, place, &self.whole[first..], &other.whole[first..]))
    }

    fn is_pattern(&self, mut places: std::ops::Range<usize>) -> bool {
        places.all(|i| self.whole[i] == T::pattern(i, self.flip))
    }
}
