//! What is wrong with a malformed image, for the counts of what streams reach.
//!
//! It asks the other way round than the reader does: how the bodies lie to each
//! other, whatever came before, so that an image with one thing wrong counts as
//! one.  Nothing wrong is the same as well-formed: a test holds the two against
//! each other.

use crate::image::{BLOCKS, BODY_COUNTS, ENTRIES_BYTES, ENTRY_BYTES};

#[derive(Clone, Copy, Debug, PartialEq, Eq)]
pub enum Way {
    EntriesCut,
    OtherKind,
    EmptyWithOffset,
    EmptyWithLength,
    NoNumbers,
    OtherLength,
    GapBeforeTheFirst,
    GapBetween,
    Shared,
    Overlapping,
    OtherOrder,
    BytesBehind,
    BytesMissing,
}

impl Way {
    pub const ALL: [Way; 13] = [
        Way::EntriesCut,
        Way::OtherKind,
        Way::EmptyWithOffset,
        Way::EmptyWithLength,
        Way::NoNumbers,
        Way::OtherLength,
        Way::GapBeforeTheFirst,
        Way::GapBetween,
        Way::Shared,
        Way::Overlapping,
        Way::OtherOrder,
        Way::BytesBehind,
        Way::BytesMissing,
    ];

    pub fn words(self) -> &'static str {
        match self {
            Way::EntriesCut => "shorter than its entries",
            Way::OtherKind => "a kind above 1",
            Way::EmptyWithOffset => "an empty entry with an offset",
            Way::EmptyWithLength => "an empty entry with a length",
            Way::NoNumbers => "a filled entry of length 0",
            Way::OtherLength => "a body of another length",
            Way::GapBeforeTheFirst => "a gap before the first body",
            Way::GapBetween => "a gap between two bodies",
            Way::Shared => "a body shared by two entries",
            Way::Overlapping => "a body that begins in the one before",
            Way::OtherOrder => "bodies in another order",
            Way::BytesBehind => "bytes behind the last body",
            Way::BytesMissing => "bytes missing at the end",
        }
    }
}

/// One thing that is wrong, and the entry in which it is.
#[derive(Clone, Copy, Debug, PartialEq, Eq)]
pub struct Wrong {
    pub way: Way,
    pub entry: Option<usize>,
}

#[derive(Clone, Copy, Debug, PartialEq, Eq)]
pub struct Entry {
    pub kind: u8,
    pub offset: usize,
    pub length: usize,
}

impl Entry {
    /// Whether it speaks of a body: one of another kind does where it has an
    /// offset or a length.
    fn has_body(&self) -> bool {
        self.kind == 1 || self.kind > 1 && (self.offset, self.length) != (0, 0)
    }

    pub fn is_all_zeros(&self) -> bool {
        (self.kind, self.offset, self.length) == (0, 0, 0)
    }

    fn end(&self) -> usize {
        self.offset + self.length
    }
}

/// The entries, where there are bytes for all of them.
pub fn entries(image: &[u8]) -> Option<Vec<Entry>> {
    let bytes = image.get(..ENTRIES_BYTES)?.chunks(ENTRY_BYTES);
    let entries: Vec<Entry> = bytes
        .map(|entry| Entry {
            kind: entry[0],
            offset: u16::from_be_bytes([entry[1], entry[2]]) as usize,
            length: u16::from_be_bytes([entry[3], entry[4]]) as usize,
        })
        .collect();
    assert_eq!(entries.len(), BLOCKS);
    Some(entries)
}

/// All that is wrong with an image.
pub fn wrong(image: &[u8]) -> Vec<Wrong> {
    let Some(entries) = entries(image) else {
        return vec![Wrong {
            way: Way::EntriesCut,
            entry: None,
        }];
    };
    let mut wrong = Vec::new();
    let mut find = |way, entry| wrong.push(Wrong { way, entry });
    for (place, entry) in entries.iter().enumerate() {
        if entry.kind > 1 {
            find(Way::OtherKind, Some(place));
        }
        if entry.kind == 0 && entry.offset != 0 {
            find(Way::EmptyWithOffset, Some(place));
        }
        if entry.kind == 0 && entry.length != 0 {
            find(Way::EmptyWithLength, Some(place));
        }
        if entry.has_body() && entry.length == 0 {
            find(Way::NoNumbers, Some(place));
        } else if entry.has_body() && !BODY_COUNTS.map(|count| 2 * count).contains(&entry.length) {
            find(Way::OtherLength, Some(place));
        }
    }
    let bodies = entries.iter().enumerate();
    let bodies: Vec<(usize, Entry)> = bodies
        .filter(|(_, entry)| entry.has_body())
        .map(|(place, entry)| (place, *entry))
        .collect();
    if let Some(place) = in_another_order(&bodies, image.len()) {
        find(Way::OtherOrder, Some(place));
        return wrong;
    }
    let mut end = ENTRIES_BYTES;
    for (index, (place, entry)) in bodies.iter().enumerate() {
        let before = &bodies[..index];
        if entry.offset > end {
            let first = before.is_empty();
            let way = if first {
                Way::GapBeforeTheFirst
            } else {
                Way::GapBetween
            };
            find(way, Some(*place));
        } else if entry.offset < end {
            let shared = before.iter().any(|(_, one)| one.offset == entry.offset);
            find(
                if shared {
                    Way::Shared
                } else {
                    Way::Overlapping
                },
                Some(*place),
            );
        }
        end = end.max(entry.end());
    }
    match image.len() {
        length if length > end => find(Way::BytesBehind, None),
        length if length < end => find(Way::BytesMissing, None),
        _ => {}
    }
    wrong
}

/// The first entry out of order, where the bodies fill the image without gaps
/// but in another order than that of their blocks.
fn in_another_order(bodies: &[(usize, Entry)], length: usize) -> Option<usize> {
    let mut sorted = bodies.to_vec();
    sorted.sort_by_key(|(_, entry)| entry.offset);
    let mut end = ENTRIES_BYTES;
    for (_, entry) in &sorted {
        if entry.offset != end || entry.length == 0 {
            return None;
        }
        end = entry.end();
    }
    let mut pairs = bodies.iter().zip(&sorted);
    let first = pairs.find(|(one, other)| one.0 != other.0);
    first.filter(|_| end == length).map(|(one, _)| one.0)
}
