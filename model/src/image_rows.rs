//! What is counted of an image that a block is read from, by `blockline`'s
//! record R and by `benchline`'s record B alike.

use crate::damage::{entries, wrong, Way};
use crate::image::{read_block, BLOCKS, LONGEST_IMAGE};
use crate::input::MOST_BYTES;
use std::cmp::Ordering;

const SEVERAL: &str = "malformed in several ways";
const BEFORE: &str = "malformed before the entry asked for";
const THERE: &str = "malformed in the entry asked for";
const AFTER: &str = "malformed after the entry asked for";
const BEFORE_8: &str = "malformed, and the block above 14";
const BEFORE_9: &str = "malformed, and the entry asked for all zeros";
const NO_BYTES: &str = "malformed: no bytes";
const MOST: &str = "malformed: 2048 bytes";
const BLOCK_15: &str = "block 15 of a well-formed image";
const BLOCK_255: &str = "block 255 of a well-formed image";
const BLOCK_BETWEEN: &str = "a block from 16 to 254 of a well-formed image";
const NONE_FILLED: &str = "empty: no block is filled";
const ALL_FILLED: &str = "found: every block is filled";
const LONGEST: &str = "found: the longest image";
const ALONE: &str = "found: the only block that is filled";
const OF_24: &str = "found: 24 numbers";
const OF_25: &str = "found: 25 numbers";

fn alone(way: Way) -> String {
    format!("malformed by {} alone", way.words())
}

fn empty(block: usize) -> String {
    format!("empty: block {block}")
}

fn found(block: usize) -> String {
    format!("found: block {block}")
}

/// The names of the list.
pub fn list() -> Vec<String> {
    let typed = [
        SEVERAL,
        BEFORE,
        THERE,
        AFTER,
        BEFORE_8,
        BEFORE_9,
        NO_BYTES,
        MOST,
        BLOCK_15,
        BLOCK_255,
        BLOCK_BETWEEN,
        NONE_FILLED,
        ALL_FILLED,
        LONGEST,
        ALONE,
        OF_24,
        OF_25,
    ];
    let mut list = typed.map(str::to_string).to_vec();
    list.extend(Way::ALL.map(alone));
    for block in 0..BLOCKS {
        list.extend([empty(block), found(block)]);
    }
    list
}

/// The names that reading this block of this image counts for.
pub fn names(image: &[u8], block: usize) -> Vec<String> {
    let read = read_block(image, block);
    match read.number {
        7 => malformed(image, block),
        8 => vec![match block {
            15 => BLOCK_15.to_string(),
            255 => BLOCK_255.to_string(),
            _ => BLOCK_BETWEEN.to_string(),
        }],
        9 => {
            let mut names = vec![empty(block)];
            if filled(image) == 0 {
                names.push(NONE_FILLED.to_string());
            }
            names
        }
        _ => {
            let of_its_length = if read.part.len() == 48 { OF_24 } else { OF_25 };
            let mut names = vec![found(block), of_its_length.to_string()];
            match filled(image) {
                1 => names.push(ALONE.to_string()),
                BLOCKS => names.push(ALL_FILLED.to_string()),
                _ => {}
            }
            if image.len() == LONGEST_IMAGE {
                names.push(LONGEST.to_string());
            }
            names
        }
    }
}

/// How many blocks of a well-formed image are filled.
fn filled(image: &[u8]) -> usize {
    let entries = entries(image).expect("well-formed");
    entries.iter().filter(|entry| entry.kind == 1).count()
}

fn malformed(image: &[u8], block: usize) -> Vec<String> {
    let mut names = Vec::new();
    let mut count = |name: &str| names.push(name.to_string());
    match wrong(image).as_slice() {
        [] => panic!("nothing is wrong with an image that is refused with 7"),
        [one] => {
            count(&alone(one.way));
            if let Some(place) = one.entry.filter(|_| block < BLOCKS) {
                count(match place.cmp(&block) {
                    Ordering::Less => BEFORE,
                    Ordering::Equal => THERE,
                    Ordering::Greater => AFTER,
                });
            }
        }
        _ => count(SEVERAL),
    }
    if block >= BLOCKS {
        count(BEFORE_8);
    } else if entries(image).is_some_and(|entries| entries[block].is_all_zeros()) {
        count(BEFORE_9);
    }
    match image.len() {
        0 => count(NO_BYTES),
        MOST_BYTES => count(MOST),
        _ => {}
    }
    names
}
