//! M-105: the lines that tell what became of a Hall sample.

mod common;
use common::*;
use model::generator::stream;
use model::record::{read_head, Head};
use model::{report_line, Answer, CycleFields, Drive, Fate, Record};

/// "the report line gains a space and one letter (F, S, W, B, D, X, or a full
/// stop otherwise) before the line feed": byte by byte, 47 of them.
#[test]
fn the_line_of_47_bytes() {
    let named = [
        (Some(Fate::First), b'F'),
        (Some(Fate::Same), b'S'),
        (Some(Fate::Forward), b'W'),
        (Some(Fate::Back), b'B'),
        (Some(Fate::Dead), b'D'),
        (Some(Fate::Stray), b'X'),
        (None, b'.'),
    ];
    let drive = patterns(&loaded(&[]), &[3, 1]);
    for (fate, letter) in named {
        let answer = Answer {
            fate,
            ..drive.answer(0, 0)
        };
        let mut lent = [b'#'; 49];
        assert_eq!(report_line(&answer, &mut lent), (0, 0));
        assert_eq!(&lent[..44], b"0 STOP........ 0 0000 +00000 FFFFFFFF +00000");
        assert_eq!(lent[44..], [b' ', letter, b'\n', b'#', b'#']);
        let mut enough = [b'#'; 47];
        assert_eq!(report_line(&answer, &mut enough), (0, 0));
        assert_eq!(enough, lent[..47]);
        // "number 5 now applies below 47 bytes", at place 0.
        for length in [0, 44, 45, 46] {
            let mut few = vec![b'#'; length];
            assert_eq!(report_line(&answer, &mut few), (5, 0));
            assert_eq!(few, vec![b'#'; length]);
        }
    }
}

/// The last line of a run of `shiftline` and of `benchline`.
fn last_lines(input: &[u8]) -> [String; 2] {
    [model::program::run, model::benchline::run].map(|run| {
        let printed = String::from_utf8(run(input)).unwrap();
        printed.lines().last().unwrap().to_string()
    })
}

/// A run's lines, and the line with number 6; `benchline` has `?` for it.
#[test]
fn lines_of_the_programs() {
    let mut input = Record::Load(EXAMPLE).bytes();
    for pattern in [1, 3, 2, 0] {
        let samples = pair(0, 0);
        input.extend(Record::Cycle(CycleFields { pattern, samples }).bytes());
    }
    let [line, bench] = last_lines(&input);
    assert_eq!(line, "0 STOP........ 0 0000 +00000 00000002 +10922 D");
    assert_eq!(bench, "0 0 1 0 0 0 2 10922 0 0 0 D");
    for bad in [b"C".as_slice(), b"X", b"C\x01\0\0\0"] {
        let [line, bench] = last_lines(&[&input, bad].concat());
        assert_eq!(line, "6 STOP........ 0 0000 +00000 00000002 +10922 .");
        assert_eq!(bench, "?");
    }
    input.extend(Record::Tick(low()).bytes());
    let [line, bench] = last_lines(&input);
    assert_eq!(line, "0 OFFSETCAL... 0 0000 +00000 00000002 +10922 .");
    assert_eq!(bench, "0 0 2 0 0 0 2 10922 0 0 0 .");
}

/// A sample's letter, told from what it did to the drive.
fn told_by_the_drive(before: &Drive, after: &Drive) -> char {
    let moved = (after.position as u32).wrapping_sub(before.position as u32) as i32;
    match (before.kept_pattern, after.kept_pattern) {
        // Every other sample ends a streak of dead ones.
        _ if after.dead_streak > 0 => 'D',
        (None, _) => 'F',
        (Some(_), None) => 'X',
        _ if after.stray_streak > 0 => 'X',
        (Some(kept), Some(now)) if kept == now => 'S',
        _ if moved > 0 => 'W',
        _ => 'B',
    }
}

#[test]
fn the_letter_fits_what_the_sample_did() {
    for seed in 1..=10 {
        let stream = stream(seed, 20_000);
        let mut rest = stream.as_slice();
        let mut drive = Drive::power_up();
        while let Head::Whole(record) = read_head(rest) {
            rest = &rest[record.bytes().len()..];
            let reply = record.call(&drive);
            let judged = reply.answer.number == 0 && record.letter() == b'C';
            let expected = if judged {
                told_by_the_drive(&drive, &reply.drive)
            } else {
                '.'
            };
            assert_eq!(reply.answer.fate_letter(), expected, "{record:?}");
            drive = reply.drive;
        }
    }
}
