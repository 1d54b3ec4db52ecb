//! M-102, parameter images: the reader, worked out by hand from its sentences.
//! The writer and the analog choice stand in `image_writer.rs`.

mod common;
use common::images::*;
use model::image::{numbers_of, read_block};

fn refused(image: &[u8], block: usize, number: u8) {
    let found = read_block(image, block);
    assert_eq!((found.number, found.place), (number, 0), "block {block}");
    // "refused, an empty part"
    assert_eq!(found.part, b"");
}

/// 7 whatever is asked for: 14 and 3 are filled, 1 is empty, 15 is too much.
fn malformed(image: &[u8]) {
    for block in [0, 1, 3, 14, 15, 255] {
        refused(image, block, 7);
    }
}

#[test]
fn the_reader_gives_back_the_part_that_holds_the_block() {
    let image = three_blocks();
    assert_eq!(image.len(), 221);
    for (block, begin, end, count) in [(0, 75, 123, 24), (3, 123, 173, 25), (14, 173, 221, 24)] {
        let found = read_block(&image, block);
        assert_eq!((found.number, found.place), (0, 0));
        // The very bytes of the caller's image, and no copy.
        assert_eq!(found.part.as_ptr(), image[begin..].as_ptr());
        assert_eq!(found.part.len(), end - begin);
        assert_eq!(numbers_of(found.part), numbers(block as u16, count));
    }
}

#[test]
fn numbers_are_high_byte_first() {
    let mut bytes = vec![0; 48];
    (bytes[0], bytes[1], bytes[47]) = (1, 2, 3);
    let found = numbers_of(&bytes);
    assert_eq!((found.len(), found[0], found[23]), (24, 258, 3));
}

/// "then 8 block above 14, then 9 block empty"
#[test]
fn blocks_above_14_and_empty_ones() {
    let image = three_blocks();
    for block in [15, 16, 30, 255, 256, 65535] {
        refused(&image, block, 8);
    }
    for block in [1, 2, 4, 5, 6, 7, 8, 9, 10, 11, 12, 13] {
        refused(&image, block, 9);
    }
    // Entries alone: every block is empty, and 15 still too much.
    for block in 0..15 {
        refused(&[0; 75], block, 9);
    }
    refused(&[0; 75], 15, 8);
}

/// "An image that breaks any of this is malformed": bytes missing or besides.
#[test]
fn images_cut_and_images_with_more_behind() {
    let image = three_blocks();
    for kept in 0..image.len() {
        malformed(&image[..kept]);
    }
    malformed(&[image.as_slice(), &[0]].concat());
    malformed(&[image.as_slice(), &[0; 48]].concat());
    malformed(&[0; 74]);
    malformed(&[0; 76]);
}

/// "The bodies follow in block order without gaps": gaps, one byte long, with
/// every offset right for what stands there.
#[test]
fn gaps() {
    let (first, second) = (body(&numbers(0, 24)), body(&numbers(3, 25)));
    let before_the_first = entries(&[(0, entry(1, 76, 48)), (3, entry(1, 124, 50))]);
    malformed(&[before_the_first.as_slice(), &[0], &first, &second].concat());
    let between = entries(&[(0, entry(1, 75, 48)), (3, entry(1, 124, 50))]);
    malformed(&[between.as_slice(), &first, &[0], &second].concat());
    // The same two bodies without a gap are an image.
    let none = entries(&[(0, entry(1, 75, 48)), (3, entry(1, 123, 50))]);
    let image = [none, first, second.clone()].concat();
    assert_eq!(read_block(&image, 3).part, second);
}

/// Swapped, shared and overlapping bodies.
#[test]
fn bodies_out_of_order() {
    let (first, second) = (body(&numbers(0, 24)), body(&numbers(3, 24)));
    let swapped = entries(&[(0, entry(1, 123, 48)), (3, entry(1, 75, 48))]);
    malformed(&[swapped, second.clone(), first.clone()].concat());
    let shared = entries(&[(0, entry(1, 75, 48)), (3, entry(1, 75, 48))]);
    malformed(&[shared.clone(), first.clone()].concat());
    malformed(&[shared, first.clone(), second.clone()].concat());
    let overlapping = entries(&[(0, entry(1, 75, 48)), (3, entry(1, 121, 48))]);
    malformed(&[overlapping, first, second[2..].to_vec()].concat());
}

/// "kind (0 empty, 1 filled)", "An empty entry is all zeros": in any entry,
/// also one that is not asked for.
#[test]
fn entries_that_are_neither_empty_nor_filled() {
    for kind in 2..=255 {
        for block in [0, 1, 3, 14] {
            let mut image = three_blocks();
            image[block * 5] = kind;
            malformed(&image);
        }
    }
    // Each of the four other bytes of an empty entry.
    for block in [1, 2, 13] {
        for byte in 1..5 {
            for value in [1, 48, 255] {
                let mut image = three_blocks();
                image[block * 5 + byte] = value;
                malformed(&image);
            }
        }
    }
}

/// "24 or 25 numbers": 48 or 50 bytes, with bodies of exactly the bytes that
/// the entry says.  304 has the low byte of 48.
#[test]
fn bodies_of_other_lengths() {
    for length in [0, 1, 2, 24, 25, 46, 47, 49, 51, 52, 96, 100, 304, 306] {
        let entries = entries(&[(7, entry(1, 75, length))]);
        malformed(&[entries, vec![0; length as usize]].concat());
    }
    for length in [48, 50] {
        let entries = entries(&[(7, entry(1, 75, length))]);
        let image = [entries, vec![0; length as usize]].concat();
        assert_eq!(read_block(&image, 7).part.len(), length as usize);
    }
}

/// "offsets count from the image's first byte", "two bytes each, high first".
#[test]
fn offsets_by_another_rule() {
    for offset in [0, 74, 76, 75 * 256, 256 + 75, 65535] {
        let entries = entries(&[(7, entry(1, offset, 48))]);
        malformed(&[entries, vec![0; 48]].concat());
    }
}
