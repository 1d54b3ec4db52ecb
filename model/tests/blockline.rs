//! The program `blockline`, by the sentences of its page.

mod common;
use common::images::*;
use common::EXAMPLE;
use model::blockline::{read_block_head, run, BlockHead};

fn lines(input: &[u8]) -> Vec<String> {
    let printed = String::from_utf8(run(input)).expect("ASCII");
    assert!(printed.is_empty() || printed.ends_with('\n'));
    printed.lines().map(str::to_string).collect()
}

fn read(block: u8, image: &[u8]) -> Vec<u8> {
    let length = (image.len() as u16).to_be_bytes();
    [b"R".as_slice(), &[block], &length, image].concat()
}

/// A record W: how many bytes are lent, what they hold, and the blocks as they
/// stand in it; the others are `00 00`, empty and without numbers.
fn write(lent: u16, held: u8, blocks: &[(usize, Vec<u8>)]) -> Vec<u8> {
    let mut bytes = [b"W".as_slice(), &lent.to_be_bytes(), &[held]].concat();
    for block in 0..15 {
        let given = blocks.iter().find(|(number, _)| *number == block);
        bytes.extend(given.map_or(vec![0, 0], |(_, bytes)| bytes.clone()));
    }
    bytes
}

fn words(numbers: &[u16]) -> String {
    let words: Vec<String> = numbers.iter().map(u16::to_string).collect();
    words.join(" ")
}

/// "number, place, then the numbers of the body that the reader gave back"
#[test]
fn records_r() {
    let image = image_with(4, &EXAMPLE);
    let mut input = read(4, &image);
    input.extend(read(5, &image));
    input.extend(read(15, &image));
    input.extend(read(4, &image[..100]));
    input.extend(read(0, &[0; 2048]));
    input.extend(read(0, b""));
    let body = format!("0 0 {}", words(&EXAMPLE));
    assert_eq!(
        lines(&input),
        [body.as_str(), "9 0", "8 0", "7 0", "7 0", "7 0"]
    );
}

/// "number, place, block"
#[test]
fn records_a() {
    let input = b"A\0\0A\x01\x12A\x0F\xFFA\x10\0A\xFF\xFF";
    assert_eq!(lines(input), ["0 0 0", "0 0 1", "0 0 14", "1 1 0", "1 1 0"]);
}

/// "number, place, length of the image, then every lent byte"
#[test]
fn records_w() {
    let filled = [&[1, 24], body(&[513; 24]).as_slice()].concat();
    // Entry 14 is the last of the 75 bytes: kind 1, offset 75, length 48.
    let entries = format!("{}1 0 75 0 48", "0 ".repeat(70));
    let image = format!("{entries}{}", " 2 1".repeat(24));
    let mut input = write(125, 9, &[(14, filled.clone())]);
    input.extend(write(122, 9, &[(14, filled.clone())]));
    input.extend(write(0, 9, &[(14, filled)]));
    input.extend(write(2, 8, &[(6, vec![1, 0])]));
    // "a count of 200 is followed by 25", in an empty block, too.
    let many = |kind| [&[kind, 200], body(&[7; 25]).as_slice()].concat();
    input.extend(write(0, 8, &[(6, many(1)), (9, many(0))]));
    input.extend(write(75, 8, &[(9, many(0))]));
    assert_eq!(
        lines(&input),
        [
            format!("0 0 123 {image} 9 9"),
            format!("5 0 0{}", " 9".repeat(122)),
            "5 0 0".to_string(),
            "2 7 0 8 8".to_string(),
            "2 7 0".to_string(),
            format!("0 0 75{}", " 0".repeat(75)),
        ]
    );
}

/// Unknown, cut short, or bad by a rule: `?`, and nothing after it.
#[test]
fn what_is_no_record() {
    assert_eq!(lines(b""), [""; 0]);
    for bad in [
        b"X".as_slice(),
        b"r",
        b"B\0\0\0",
        b"R\0\x08\x01",
        b"W\x08\x01\0",
    ] {
        assert_eq!(lines(bad), ["?"]);
        assert_eq!(lines(&[b"A\0\0", bad, b"A\0\0"].concat()), ["0 0 0", "?"]);
    }
    // A kind of 2 in the last block, whose count and numbers are there.
    let kind_2 = write(75, 0, &[(14, vec![2, 0])]);
    assert_eq!(lines(&[kind_2.as_slice(), b"A\0\0"].concat()), ["?"]);
    assert_eq!(
        lines(&[write(2049, 0, &[]).as_slice(), b"A\0\0"].concat()),
        ["?"]
    );
    assert_eq!(
        lines(&[read(0, &[0; 2049]).as_slice(), b"A\0\0"].concat()),
        ["?"]
    );
    let whole_ones = [
        read(4, &image_with(4, &EXAMPLE)),
        b"A\x01\x02".to_vec(),
        write(
            75,
            0,
            &[(3, [&[1, 255], body(&[1; 25]).as_slice()].concat())],
        ),
    ];
    for whole in whole_ones {
        for kept in 1..whole.len() {
            assert_eq!(lines(&whole[..kept]), ["?"], "{kept} bytes");
        }
        // Its bytes are those that were read.
        match read_block_head(&[whole.as_slice(), b"A"].concat()) {
            BlockHead::Whole(record, length) => {
                assert_eq!((record.bytes(), length), (whole.clone(), whole.len()));
            }
            other => panic!("{other:?}"),
        }
    }
}
