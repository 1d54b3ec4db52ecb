//! The generator: same seed, same stream; whole records but for the last; and
//! everything on the list reached.

use model::generator::stream;
use model::program::run;
use model::reached::Reached;
use model::record::{read_head, record_length, Head};

/// Records of a stream, and whether the last is unknown or short.
fn records(stream: &[u8]) -> (u64, bool) {
    let mut rest = stream;
    let mut count = 0;
    loop {
        match read_head(rest) {
            Head::End => return (count, false),
            Head::Unknown(_) | Head::Short(_) => return (count + 1, true),
            Head::Whole(record) => {
                count += 1;
                rest = &rest[record_length(record.letter()).unwrap()..];
            }
        }
    }
}

#[test]
fn the_same_stream_for_the_same_seed() {
    assert_eq!(stream(5, 3000), stream(5, 3000));
    assert_ne!(stream(5, 3000), stream(6, 3000));
}

#[test]
fn streams_have_as_many_records_as_asked() {
    for seed in 0..60 {
        for count in [0, 1, 2, 3, 5, 10, 50, 500] {
            assert_eq!(records(&stream(seed, count)).0, count);
        }
    }
    let ends = |bad: bool| {
        (0..40)
            .filter(|&seed| records(&stream(seed, 50)).1 == bad)
            .count()
    };
    assert!(ends(true) >= 10 && ends(false) >= 10);
}

/// One line of 47 bytes for each record.
#[test]
fn one_line_per_record() {
    for seed in 0..20 {
        let stream = stream(seed, 1000);
        assert_eq!(run(&stream).len(), 47 * 1000);
    }
}

#[test]
fn forty_seeds_reach_all_that_fits_into_20_000_records() {
    let mut reached = Reached::new();
    for seed in 1..=40 {
        reached.add_stream(&stream(seed, 20_000));
    }
    assert_eq!(reached.unlisted(), Vec::<String>::new());
    for name in reached.at_zero() {
        assert!(name.ends_with("(long)"), "{name}");
    }
    // Three long streams reach the rest.
    for seed in [4, 7, 9] {
        reached.add_stream(&stream(seed, 150_000));
    }
    assert_eq!(reached.at_zero(), Vec::<String>::new());
}
