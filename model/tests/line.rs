//! The report line call.

use model::{report_line, Answer, Fate, Pair};

fn answer() -> Answer {
    Answer {
        number: 15,
        place: 24,
        state: 9,
        gate: 3,
        live_word: 0xABCD,
        speed_reference: -32768,
        position: 0xDEADBEEF,
        angle: -1,
        offsets: Pair {
            first: 1,
            second: 2,
        },
        retries_used: 3,
        fate: Some(Fate::Back),
    }
}

/// "45 bytes, lent bytes after them unchanged", and by M-105 "a space and one
/// letter": 47.
#[test]
fn line_of_an_answer() {
    let mut lent = [b'#'; 50];
    assert_eq!(report_line(&answer(), &mut lent), (0, 0));
    assert_eq!(
        &lent[..],
        b"F ANGLESENSING 3 ABCD -32768 DEADBEEF -00001 B\n###"
    );
    let mut lent = [b'#'; 47];
    assert_eq!(
        report_line(
            &Answer {
                angle: 0,
                ..answer()
            },
            &mut lent
        ),
        (0, 0)
    );
    assert_eq!(
        &lent[..],
        b"F ANGLESENSING 3 ABCD -32768 DEADBEEF +00000 B\n"
    );
}

/// Number 5: few lent bytes first, then number, state, gate; no lent byte
/// changes.
#[test]
fn line_refused() {
    let worst = Answer {
        number: 16,
        state: 10,
        gate: 4,
        ..answer()
    };
    let cases = [
        (46, worst.clone(), 0),
        (0, worst.clone(), 0),
        (47, worst.clone(), 1),
        (
            60,
            Answer {
                number: 15,
                ..worst.clone()
            },
            2,
        ),
        (
            47,
            Answer {
                number: 0,
                state: 0,
                ..worst
            },
            3,
        ),
        (46, answer(), 0),
        (45, answer(), 0),
    ];
    for (length, answer, place) in cases {
        let mut lent = vec![b'#'; length];
        assert_eq!(report_line(&answer, &mut lent), (5, place));
        assert!(lent.iter().all(|&byte| byte == b'#'));
    }
}
