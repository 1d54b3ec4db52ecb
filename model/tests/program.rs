//! The program: the example byte for byte, and how runs end.

mod common;
use common::*;
use model::program::run;
use model::{CycleFields, Record, TickFields};

const IDLE: &str = "IDLE........ 0 0000 +00000 00000000 +00000 .\n";
const STOP: &str = "STOP........ 0 0000 +00000 00000000 +00000 .\n";

fn cycle_record(pattern: i64) -> Record {
    Record::Cycle(CycleFields {
        pattern,
        samples: pair(0, 0),
    })
}

fn bytes(records: &[Record]) -> Vec<u8> {
    records.iter().flat_map(Record::bytes).collect()
}

fn lines(input: &[u8]) -> String {
    String::from_utf8(run(input)).unwrap()
}

/// 01's six lines, with the letters of M-105: of the cycle refused with 3 none,
/// of the load none, of the first pattern F, of the step from 1 to 3 W, of the
/// ticks none.
#[test]
fn six_lines_of_the_example() {
    let input = bytes(&[
        cycle_record(1),
        Record::Load(EXAMPLE),
        cycle_record(1),
        cycle_record(3),
        Record::Tick(low()),
        Record::Tick(TickFields {
            vdc_filt: 3001,
            ..low()
        }),
    ]);
    let expected = "\
3 IDLE........ 0 0000 +00000 00000000 +00000 .
0 STOP........ 0 0000 +00000 00000000 +00000 .
0 STOP........ 0 0000 +00000 00000000 -05462 F
0 STOP........ 0 0000 +00000 00000001 +00000 W
0 OFFSETCAL... 0 0000 +00000 00000001 +00000 .
0 FAULT....... 0 0004 +00000 00000001 +00000 .
";
    assert_eq!(lines(&input), expected);
}

/// "Numbers are two bytes, high first, signed ones in two's complement."
#[test]
fn bytes_of_the_records() {
    assert_eq!(
        Record::Cycle(CycleFields {
            pattern: 5,
            samples: pair(258, 4095)
        })
        .bytes(),
        [b'C', 5, 1, 2, 15, 255]
    );
    let fields = TickFields {
        gate_kill: 1,
        clear: 0,
        command: 1,
        control: 1,
        vdc_raw: 2,
        vdc_filt: 3,
        temperature: 4,
        flx_m: 65535,
        trq_ref: -1,
        speed: -32767,
        target: 32767,
    };
    let expected = [
        b'T', 1, 0, 1, 0, 1, 0, 2, 0, 3, 0, 4, 255, 255, 255, 255, 128, 1, 127, 255,
    ];
    assert_eq!(Record::Tick(fields).bytes(), expected);
    let head = model::record::read_head(&expected);
    assert_eq!(head, model::record::Head::Whole(Record::Tick(fields)));
    assert_eq!(Record::Load(EXAMPLE).bytes().len(), 49);
}

/// M-101: "A program record M carries 25."
#[test]
fn bytes_of_the_record_m() {
    let record = Record::LoadWithSensors(with_sensors(&[], 2));
    let expected = [
        b"M",
        &Record::Load(EXAMPLE).bytes()[1..],
        b"\0\x02".as_slice(),
    ]
    .concat();
    assert_eq!((record.bytes(), expected.len()), (expected.clone(), 51));
    assert_eq!(
        model::record::read_head(&expected),
        model::record::Head::Whole(record)
    );
}

/// "a load of 24 numbers means 3": so M with setting 25 = 3 is the same load.
#[test]
fn record_m_with_three_sensors_is_l() {
    let rest = bytes(&[5, 4, 0, 0].map(cycle_record));
    let by_l = [bytes(&[Record::Load(EXAMPLE)]), rest.clone()].concat();
    let record = Record::LoadWithSensors(with_sensors(&[], 3));
    let by_m = [bytes(&[record]), rest].concat();
    assert_eq!(lines(&by_m), lines(&by_l));
    assert!(lines(&by_m).ends_with("0 STOP........ 0 8000 +00000 FFFFFFFF -21846 D\n"));
}

/// "Input that ends between records adds no line."
#[test]
fn input_that_ends_between_records() {
    assert_eq!(lines(b""), "");
    assert_eq!(lines(&bytes(&[Record::Load(EXAMPLE)])), format!("0 {STOP}"));
}

/// "a line with number 6 shows the unchanged state and ends the run."
#[test]
fn unknown_record_ends_the_run() {
    let mut input = bytes(&[Record::Load(EXAMPLE)]);
    input.push(b'l');
    input.extend(bytes(&[cycle_record(1), cycle_record(3)]));
    assert_eq!(lines(&input), format!("0 {STOP}6 {STOP}"));
    // "only the records L, C, T and (from M-101) M exist" here: the B of M-102
    // is a letter of `benchline`.
    assert_eq!(lines(b"B\0\0\0"), format!("6 {IDLE}"));
    assert_eq!(lines(b"X"), format!("6 {IDLE}"));
    assert_eq!(lines(b"\n"), format!("6 {IDLE}"));
    assert_eq!(lines(b"m"), format!("6 {IDLE}"));
}

#[test]
fn short_records_of_each_kind() {
    let start = bytes(&[Record::Load(EXAMPLE)]);
    let with_sensors = Record::LoadWithSensors(with_sensors(&[], 2));
    let load = Record::Load(EXAMPLE);
    for record in [load, with_sensors, cycle_record(1), Record::Tick(low())] {
        let whole = record.bytes();
        for length in 1..whole.len() {
            let input = [&start, &whole[..length]].concat();
            assert_eq!(lines(&input), format!("0 {STOP}6 {STOP}"));
        }
    }
}

/// A short record is 6 even where 3 or 4 would hold.
#[test]
fn short_record_makes_no_call() {
    assert_eq!(lines(b"C\x01"), format!("6 {IDLE}"));
    assert_eq!(lines(b"T"), format!("6 {IDLE}"));
    for short in [b"L\0\0", b"M\0\0"] {
        let mut input = bytes(&[Record::Load(EXAMPLE), Record::Tick(low())]);
        input.extend(short);
        let offsetcal = "OFFSETCAL... 0 0000 +00000 00000000 +00000 .\n";
        assert_eq!(lines(&input), format!("0 {STOP}0 {offsetcal}6 {offsetcal}"));
    }
}

/// Refusals add a line and the run goes on.
#[test]
fn refusals_do_not_end_the_run() {
    let mut bad = EXAMPLE;
    bad[23] = 101;
    let input = bytes(&[
        Record::Load(bad),
        Record::Load(EXAMPLE),
        cycle_record(8),
        Record::Tick(low()),
        Record::Load(EXAMPLE),
    ]);
    let offsetcal = "OFFSETCAL... 0 0000 +00000 00000000 +00000 .\n";
    let expected = format!("2 {IDLE}0 {STOP}1 {STOP}0 {offsetcal}4 {offsetcal}");
    assert_eq!(lines(&input), expected);
}
