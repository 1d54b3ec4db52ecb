//! The report line call.

use crate::drive::{Answer, Refusal};
use crate::state::NAMES;

/// 01's "45 bytes", and what M-105 adds: "the report line gains a space and one
/// letter [..] before the line feed".
pub const LINE_LENGTH: usize = 47;

const NO_LINE: u8 = Refusal::NoLineOrImage as u8;

/// Writes the line of an answer into lent bytes; gives number and place.
///
/// "The line call answers number and place only."  "of two rows with one
/// number, the upper first": few lent bytes before a bad answer.
pub fn report_line(answer: &Answer, lent: &mut [u8]) -> (u8, u8) {
    // "fewer than 45 lent bytes for a line"; M-105: "number 5 now applies below
    // 47 bytes"
    if lent.len() < LINE_LENGTH {
        return (NO_LINE, 0);
    }
    // "answer to print has number above 15, state above 9 or gate above 3":
    // "1, 2 or 3, the first".  No fate is a bad one: what is none of the six is
    // a full stop.
    if answer.number > 15 {
        return (NO_LINE, 1);
    }
    if answer.state > 9 {
        return (NO_LINE, 2);
    }
    if answer.gate > 3 {
        return (NO_LINE, 3);
    }
    let line = line_text(answer);
    // "lent bytes after them unchanged"
    lent[..LINE_LENGTH].copy_from_slice(line.as_bytes());
    (0, 0)
}

/// "number, one hex digit; space; name of the state, padded with full stops
/// to twelve; space; gate; space; live word, 4 hex; space; speed reference,
/// sign and 5 digits; space; position, 8 hex; space; angle, sign and 5
/// digits; line feed. Hex is upper case; zero has a plus."  M-105: "a space and
/// one letter [..] before the line feed".
fn line_text(answer: &Answer) -> String {
    format!(
        "{:X} {:.<12} {} {:04X} {} {:08X} {} {}\n",
        answer.number,
        NAMES[answer.state as usize],
        answer.gate,
        answer.live_word,
        sign_and_five_digits(answer.speed_reference),
        answer.position,
        sign_and_five_digits(answer.angle),
        answer.fate_letter(),
    )
}

fn sign_and_five_digits(value: i16) -> String {
    let wide = value as i64;
    let sign = if wide < 0 { '-' } else { '+' };
    format!("{}{:05}", sign, wide.abs())
}
