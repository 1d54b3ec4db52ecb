//! How streams end: between records, or with number 6.

use super::{add_all, Reached};
use crate::drive::Drive;
use crate::record::{read_head, record_length, Head};
use crate::state::State;

counted_names! {
    Name {
        BetweenRecords => "end between records",
        UnknownLetter => "refused 6 at 0: unknown letter",
        ShortByIts25th => "refused 6 at 0: short M with 24 whole numbers",
        InIdleAsWell => "refused 6 at 0: short C or T where 3 would hold",
    }
}

/// A line without a fate, and no record's (M-105).
pub const NUMBER_6: &str = "number 6";

pub fn add_to_list(list: &mut Vec<String>) {
    add_all(list, Name::ALL);
    for letter in ['L', 'M', 'C', 'T'] {
        list.push(short_name(letter));
    }
    for letter in ['L', 'M'] {
        list.push(not_stopped_name(letter));
    }
}

fn short_name(letter: char) -> String {
    format!("refused 6 at 0: short {letter}")
}

fn not_stopped_name(letter: char) -> String {
    format!("{} where 4 would hold", short_name(letter))
}

impl Reached {
    /// Of what is left of a stream after its whole records.
    pub(super) fn observe_end(&mut self, rest: &[u8], drive: &Drive) {
        match read_head(rest) {
            Head::End => return self.count(Name::BetweenRecords),
            Head::Unknown(_) => self.count(Name::UnknownLetter),
            Head::Short(letter) => self.short_record(letter, rest.len(), drive.state),
            Head::Whole(_) => panic!("a whole record is no end"),
        }
        self.count("records");
        for name in self.watch.fates.full_stop(NUMBER_6, drive) {
            self.count(name);
        }
    }

    fn short_record(&mut self, letter: u8, length: usize, state: State) {
        let loads = letter == b'L' || letter == b'M';
        let letter = letter as char;
        self.count(short_name(letter));
        let loadable = matches!(state, State::Idle | State::Stop);
        self.count_if(loads && !loadable, not_stopped_name(letter));
        let whole_with_24 = record_length(b'L').is_some_and(|needed| length >= needed);
        self.count_if(loads && whole_with_24, Name::ShortByIts25th);
        self.count_if(!loads && state == State::Idle, Name::InIdleAsWell);
    }
}
