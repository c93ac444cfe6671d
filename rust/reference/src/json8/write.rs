//! JSON8: a node table written in its one form.

use super::{number_kind, DECODED, DEPTH_MAX, DICT, FALSE, LIST, NODE, NODES_MAX, NULL};
use super::{OTHER_NUMBER, PLAIN, TRUE, WHOLE};
use crate::{put_bytes, put_json, refuse, Count, Fill, Refusal, Sink, NO_ROOM, UNFIT};

/// Where the text goes.
trait Page {
    /// Bytes as they stand.
    fn raw(&mut self, bytes: &[u8]);
    /// A string's bytes, in the form for them.
    fn string(&mut self, data: &[u8]);
}

impl<S: Sink> Page for S {
    fn raw(&mut self, bytes: &[u8]) {
        self.put(bytes);
    }

    fn string(&mut self, data: &[u8]) {
        match std::str::from_utf8(data) {
            Ok(_) => put_json(data, self),
            Err(_) => put_bytes(data, self),
        }
    }
}

/// The most bytes that the text could have, found without a look at a string.
struct Most(usize);

impl Page for Most {
    fn raw(&mut self, bytes: &[u8]) {
        self.0 = self.0.saturating_add(bytes.len());
    }

    fn string(&mut self, data: &[u8]) {
        let most = data.len().saturating_mul(6).saturating_add(2);
        self.0 = self.0.saturating_add(most);
    }
}

/// The bytes from a place on, if they are inside.
fn part(buffer: &[u8], place: u32, length: u32) -> Option<&[u8]> {
    let (place, length) = (usize::try_from(place).ok()?, usize::try_from(length).ok()?);
    buffer.get(place..)?.get(..length)
}

struct Writer<'a> {
    table: &'a [u32],
    text: &'a [u8],
    store: &'a [u8],
}

impl Writer<'_> {
    fn row(&self, node: usize) -> Option<[u32; NODE]> {
        let row = self.table.chunks_exact(NODE).nth(node)?;
        row.try_into().ok()
    }

    /// Puts the whole table, or finds it unfit.
    fn root(&self, page: &mut impl Page) -> Option<()> {
        let [_, count, ..] = self.row(0)?;
        let count = usize::try_from(count).ok()?;
        if !(1..=NODES_MAX).contains(&count) || self.table.len() / NODE < count {
            return None;
        }
        self.value(0, count, 0, page).map(|_| ())
    }

    /// Puts a node with its subtree, which must be done with before the node
    /// `end`, where so many brackets are open. Gives the node behind it.
    fn value(&self, node: usize, end: usize, open: usize, page: &mut impl Page) -> Option<usize> {
        if node >= end {
            return None;
        }
        let [kind, count, place, length] = self.row(node)?;
        let count = usize::try_from(count).ok()?;
        let is_leaf = !matches!(kind, LIST | DICT);
        if count == 0 || count > end - node || (is_leaf && count > 1) {
            return None;
        }
        let behind = node + count;
        match kind {
            NULL => page.raw(b"null"),
            FALSE => page.raw(b"false"),
            TRUE => page.raw(b"true"),
            WHOLE | OTHER_NUMBER => {
                let token = part(self.text, place, length)?;
                if number_kind(token) != Some(kind) {
                    return None;
                }
                page.raw(token);
            }
            PLAIN => page.string(part(self.text, place, length)?),
            DECODED => page.string(part(self.store, place, length)?),
            LIST | DICT => {
                if open == DEPTH_MAX || self.members(node, behind, open + 1, page)? != length {
                    return None;
                }
            }
            _ => return None,
        }
        Some(behind)
    }

    /// Puts a list or dict whose subtree ends before the node `behind`, and
    /// counts its members or pairs.
    fn members(
        &self,
        node: usize,
        behind: usize,
        open: usize,
        page: &mut impl Page,
    ) -> Option<u32> {
        let is_dict = self.row(node)?[0] == DICT;
        page.raw(if is_dict { b"{" } else { b"[" });
        let (mut at, mut count) = (node + 1, 0);
        while at < behind {
            if count > 0 {
                page.raw(b",");
            }
            if is_dict {
                if !matches!(self.row(at)?, [PLAIN | DECODED, ..]) {
                    return None;
                }
                at = self.value(at, behind, open, page)?;
                page.raw(b":");
            }
            at = self.value(at, behind, open, page)?;
            count += 1;
        }
        page.raw(if is_dict { b"}" } else { b"]" });
        Some(count)
    }
}

/// Writes a node table at the start of `out` and answers the text's length, or
/// refuses and leaves `out` as it was: an unfit table first, then short room.
pub fn write(table: &[u32], text: &[u8], store: &[u8], out: &mut [u8]) -> Result<usize, Refusal> {
    let writer = Writer { table, text, store };
    // The last node may be the unfit one, so all are judged before a byte is put.
    let mut most = Most(0);
    if writer.root(&mut most).is_none() {
        return refuse(UNFIT, 0);
    }
    if most.0 > out.len() {
        let mut count = Count(0);
        writer.root(&mut count);
        if count.0 > out.len() {
            return refuse(NO_ROOM, 0);
        }
    }
    let mut sink = Fill { out, at: 0 };
    writer.root(&mut sink);
    Ok(sink.at)
}

#[cfg(test)]
mod tests;
