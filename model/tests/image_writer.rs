//! M-102, parameter images: the writer and the analog choice, worked out by
//! hand from its sentences.

mod common;
use common::images::*;
use model::image::{analog_choice, numbers_of, read_block, write_image, Block, Chosen};

fn blocks(filled: &[(usize, Vec<u16>)]) -> [Block; 15] {
    let mut blocks = [Block::EMPTY; 15];
    for (block, body) in filled {
        blocks[*block] = Block::of(body);
    }
    blocks
}

/// What the writer answers, and the lent bytes after it.
fn written(blocks: &[Block; 15], lent: usize, held: u8) -> ((u8, u8, usize), Vec<u8>) {
    let mut bytes = vec![held; lent];
    let written = write_image(blocks, &mut bytes);
    ((written.number, written.place, written.length), bytes)
}

#[test]
fn the_writer_makes_the_image_and_leaves_what_is_behind() {
    let image = three_blocks();
    let three = blocks(&[
        (0, numbers(0, 24)),
        (3, numbers(3, 25)),
        (14, numbers(14, 24)),
    ]);
    assert_eq!(written(&three, 221, 9), ((0, 0, 221), image.clone()));
    let with_more = [image, vec![9; 30]].concat();
    assert_eq!(written(&three, 251, 9), ((0, 0, 221), with_more));
    // What an empty block is counted at and holds means nothing.
    let mut three_and_more = three;
    three_and_more[1] = Block {
        filled: false,
        ..Block::of(&numbers(5, 25))
    };
    three_and_more[2] = Block {
        filled: false,
        count: 200,
        ..Block::of(&[1])
    };
    assert_eq!(written(&three_and_more, 221, 9).0, (0, 0, 221));
    assert_eq!(written(&three_and_more, 221, 9).1, three_blocks());
    assert_eq!(written(&blocks(&[]), 75, 1), ((0, 0, 75), vec![0; 75]));
}

/// "then too few lent bytes is 5": 75 + 15 x 50 = 825 for the longest.
#[test]
fn too_few_lent_bytes() {
    let all: Vec<_> = (0..15)
        .map(|block| (block, numbers(block as u16, 25)))
        .collect();
    let full = blocks(&all);
    assert_eq!(written(&full, 825, 7).0, (0, 0, 825));
    for lent in [0, 1, 75, 100, 824] {
        assert_eq!(written(&full, lent, 7), ((5, 0, 0), vec![7; lent]));
    }
    for lent in [0, 1, 74] {
        assert_eq!(written(&blocks(&[]), lent, 7), ((5, 0, 0), vec![7; lent]));
    }
}

/// "a body of another length is 2 at block + 1", the first such block, before
/// 5, and no lent byte changes.
#[test]
fn bodies_of_another_length() {
    for count in [0, 1, 23, 26, 48, 50, 255] {
        for block in 0..15 {
            let mut bad = blocks(&[(0, numbers(0, 24)), (14, numbers(14, 25))]);
            bad[block] = Block {
                count,
                ..Block::of(&[1])
            };
            let place = block as u8 + 1;
            for lent in [0, 75, 2000] {
                assert_eq!(written(&bad, lent, 3), ((2, place, 0), vec![3; lent]));
            }
            if block < 14 {
                bad[block + 1] = Block {
                    count: 7,
                    ..Block::of(&[1])
                };
                assert_eq!(written(&bad, 2000, 3).0, (2, place, 0));
            }
        }
    }
}

/// "Writing then reading returns each block": also with 25th number 3, which
/// loads as the 24 alone do and is another block.
#[test]
fn writing_then_reading() {
    let with_25 = [numbers(2, 24), vec![3]].concat();
    let two = blocks(&[(2, numbers(2, 24)), (9, with_25.clone())]);
    let ((_, _, length), bytes) = written(&two, 1000, 0);
    let image = &bytes[..length];
    assert_eq!(numbers_of(read_block(image, 2).part), numbers(2, 24));
    assert_eq!(numbers_of(read_block(image, 9).part), with_25);
    assert_eq!(read_block(image, 8).number, 9);
}

/// "The analog choice is floor(count x 15 / 4096)": 273.07 counts for each
/// block.  "Count above 4095 is 1", at place 1.
#[test]
fn the_analog_choice() {
    let chosen = |block| Chosen {
        number: 0,
        place: 0,
        block,
    };
    for (count, block) in [
        (0, 0),
        (273, 0),
        (274, 1),
        (546, 1),
        (547, 2),
        (819, 2),
        (820, 3),
        (2047, 7),
        (2048, 7),
        (2184, 7),
        (2185, 8),
        (3822, 13),
        (3823, 14),
        (4095, 14),
    ] {
        assert_eq!(analog_choice(count), chosen(block), "count {count}");
    }
    for count in [4096, 4097, 8191, 32768, 65535] {
        assert_eq!(
            analog_choice(count),
            Chosen {
                number: 1,
                place: 1,
                block: 0
            }
        );
    }
}
