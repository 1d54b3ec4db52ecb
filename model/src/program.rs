//! The program of "Report line and program".

use crate::drive::{Answer, Drive, Refusal};
use crate::line::{report_line, LINE_LENGTH};
use crate::record::{read_head, record_length, Head};

/// All the lines for all the records of the input.
///
/// "One line per record, after it; a line with number 6 shows the unchanged
/// state and ends the run. Input that ends between records adds no line."
pub fn run(input: &[u8]) -> Vec<u8> {
    let mut drive = Drive::power_up();
    let mut lines = Vec::new();
    let mut rest = input;
    loop {
        match read_head(rest) {
            Head::End => return lines,
            Head::Whole(record) => {
                let length = record_length(record.letter()).expect("a known letter");
                rest = &rest[length..];
                let reply = record.call(&drive);
                push_line(&mut lines, &reply.answer);
                drive = reply.drive;
            }
            // A short record makes no call, so it is 6 even where 3 or 4
            // would hold.
            Head::Unknown(_) | Head::Short(_) => {
                push_line(&mut lines, &drive.answer(Refusal::UnknownOrShort as u8, 0));
                return lines;
            }
        }
    }
}

fn push_line(lines: &mut Vec<u8>, answer: &Answer) {
    let mut line = [0; LINE_LENGTH];
    let (number, place) = report_line(answer, &mut line);
    assert_eq!((number, place), (0, 0), "every answer of a call has a line");
    lines.extend_from_slice(&line);
}
