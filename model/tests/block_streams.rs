//! Streams for `blockline`: same seed, same stream; everything on the list
//! reached; and the images that they read, judged in two ways.

use model::block_reached::BlockReached;
use model::block_stream::block_stream;
use model::blockline::{read_block_head, run, BlockHead, BlockRecord};
use model::damage::wrong;
use model::image::{numbers_of, read_block, write_image, Block};

/// The records of a stream before its end or its bad record.
fn records(stream: &[u8]) -> Vec<BlockRecord> {
    let mut rest = stream;
    let mut records = Vec::new();
    while let BlockHead::Whole(record, length) = read_block_head(rest) {
        rest = &rest[length..];
        records.push(record);
    }
    records
}

#[test]
fn the_same_stream_for_the_same_seed() {
    assert_eq!(block_stream(5, 300), block_stream(5, 300));
    assert_ne!(block_stream(5, 300), block_stream(6, 300));
}

/// One line for each record, and `?` for a bad one.
#[test]
fn one_line_per_record() {
    for seed in 0..32 {
        for count in [0, 1, 2, 50] {
            let stream = block_stream(seed, count);
            let lines = run(&stream).iter().filter(|&&byte| byte == b'\n').count();
            assert_eq!(lines as u64, count, "seed {seed}");
        }
    }
}

/// What `damage` finds wrong it finds in its own way: nothing is wrong with
/// exactly the images that the reader does not call malformed.
#[test]
fn malformed_is_what_has_something_wrong() {
    let mut judged = [0, 0];
    for seed in 0..20 {
        for record in records(&block_stream(seed, 1_000)) {
            if let BlockRecord::Read { image, .. } = record {
                let malformed = read_block(&image, 0).number == 7;
                assert_eq!(malformed, !wrong(&image).is_empty(), "{image:?}");
                judged[usize::from(malformed)] += 1;
            }
        }
    }
    assert!(judged.into_iter().all(|count| count > 1_000), "{judged:?}");
}

/// The blocks of a well-formed image, as the writer is handed them.
fn blocks_of(image: &[u8]) -> [Block; 15] {
    std::array::from_fn(|block| match read_block(image, block) {
        found if found.number == 9 => Block::EMPTY,
        found => Block::of(&numbers_of(found.part)),
    })
}

/// "Writing then reading returns each block, and two images with equal blocks
/// are equal": of the blocks that are read from an image, which the writer did
/// not make, the writer makes that image again.
#[test]
fn reading_then_writing() {
    let mut written_again = 0;
    for record in records(&block_stream(3, 2_000)) {
        let BlockRecord::Read { image, .. } = record else {
            continue;
        };
        if read_block(&image, 0).number == 7 {
            continue;
        }
        let mut bytes = vec![170; image.len() + 3];
        let written = write_image(&blocks_of(&image), &mut bytes);
        assert_eq!((written.number, written.length), (0, image.len()));
        assert_eq!(bytes, [image.as_slice(), &[170; 3]].concat());
        written_again += 1;
    }
    assert!(written_again > 200, "{written_again}");
}

#[test]
fn forty_seeds_reach_all_of_the_list() {
    let mut reached = BlockReached::default();
    for seed in 1..=40 {
        reached.add_stream(&block_stream(seed, 500));
    }
    assert_eq!(reached.at_zero(), Vec::<String>::new());
}
