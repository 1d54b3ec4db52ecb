//! The program `benchline`, by the sentences of its page.

mod common;

use common::{with_sensors, EXAMPLE};
use model::bench_reached::BenchReached;
use model::bench_stream::bench_stream;
use model::benchline::{run, BenchRecord};
use model::Record;

fn numbers(numbers: &[u16]) -> Vec<u8> {
    BenchRecord::Numbers(numbers.to_vec()).bytes()
}

fn lines(input: &[u8]) -> Vec<String> {
    let printed = String::from_utf8(run(input)).expect("ASCII");
    assert!(printed.is_empty() || printed.ends_with('\n'));
    printed.lines().map(str::to_string).collect()
}

/// "N | count (1 byte), then so many numbers | load of any length": 24 and 25
/// good ones are taken, any other length is refused with number 2 at place 0.
#[test]
fn loads_of_any_length() {
    let mut input = numbers(&EXAMPLE);
    assert_eq!((input[0], input[1], input.len()), (b'N', 24, 50));
    assert_eq!(lines(&input), ["0 0 1 0 0 0 0 0 0 0 0 ."]);
    input.extend(numbers(&[]));
    input.extend(numbers(&EXAMPLE[..23]));
    input.extend(numbers(&[1; 26]));
    input.extend(numbers(&[1; 255]));
    assert_eq!(lines(&input)[1..], ["2 0 1 0 0 0 0 0 0 0 0 ."; 4]);
}

/// "M | as in `shiftline` | load of 25 numbers": the same load as the N of 25.
#[test]
fn loads_of_25_numbers() {
    for sensors in [2, 3] {
        let load = with_sensors(&[], sensors);
        let cycles = b"C\x01\0\0\0\0C\x03\0\0\0\0".as_slice();
        let by_m = BenchRecord::AsInShiftline(Record::LoadWithSensors(load)).bytes();
        assert_eq!((by_m[0], by_m.len()), (b'M', 51));
        let by_n = numbers(&load);
        assert_eq!((by_n[1], by_n.len()), (25, 52));
        let printed = lines(&[&by_m, cycles].concat());
        assert_eq!(lines(&[&by_n, cycles].concat()), printed);
        // 1 to 3: width 2 with two sensors, 1 with three; a step forward.
        let position = 4 - sensors;
        let last = format!("0 0 1 0 0 0 {position} 0 0 0 0 W");
        assert_eq!(printed[2], last);
    }
}

/// Setting 25 by its place, and a pattern that two sensors lack by its.
#[test]
fn refusals_of_two_sensors() {
    for sensors in [0, 1, 4, 65535] {
        let load = numbers(&with_sensors(&[], sensors));
        assert_eq!(lines(&load), ["2 25 0 0 0 0 0 0 0 0 0 ."]);
    }
    let mut input = numbers(&with_sensors(&[], 2));
    input.extend(b"C\x04\0\0\xFF\xFF");
    assert_eq!(lines(&input)[1], "1 1 1 0 0 0 0 0 0 0 0 .");
}

/// The setting that breaks its rule is shown by its place.
#[test]
fn the_place_is_shown() {
    let mut bad = EXAMPLE;
    bad[2] = 4096;
    assert_eq!(lines(&numbers(&bad)), ["2 3 0 0 0 0 0 0 0 0 0 ."]);
}

/// "A record whose letter is unknown, or that the input cuts short, .. prints
/// the line `?` and ends the run"; "Input that ends between records adds no
/// line."
#[test]
fn what_is_no_record() {
    assert_eq!(lines(b""), [""; 0]);
    assert_eq!(lines(b"X"), ["?"]);
    assert_eq!(lines(b"n\0"), ["?"]);
    assert_eq!(lines(b"XN\0"), ["?"]);
    let whole = numbers(&EXAMPLE);
    for kept in 1..whole.len() {
        assert_eq!(lines(&whole[..kept]), ["?"], "{kept} bytes");
    }
    let whole = Record::LoadWithSensors(with_sensors(&[], 2)).bytes();
    for kept in 1..whole.len() {
        assert_eq!(lines(&whole[..kept]), ["?"], "{kept} bytes of M");
    }
    assert_eq!(lines(b"N\0C"), ["2 0 0 0 0 0 0 0 0 0 0 .", "?"]);
}

/// "decimal numbers (a minus before a negative one ..)": the example's first
/// good pattern gives the angle -5462.
#[test]
fn a_minus_before_a_negative_number() {
    let mut input = numbers(&EXAMPLE);
    input.extend(b"C\x01\0\0\0\0");
    assert_eq!(lines(&input)[1], "0 0 1 0 0 0 0 -5462 0 0 0 F");
}

#[test]
fn forty_seeds_reach_all_of_the_list() {
    let mut reached = BenchReached::default();
    for seed in 1..=40 {
        reached.add_stream(&bench_stream(seed, 3_000));
    }
    reached.add_stream(&bench_stream(4, 150_000));
    assert_eq!(reached.at_zero(), Vec::<String>::new());
}
