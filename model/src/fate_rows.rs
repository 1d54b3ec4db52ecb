//! What is counted of the letters of M-105, in the streams of `shiftline` and
//! of `benchline`.

use crate::counts::of_layout;
use crate::drive::{Answer, Drive};
use crate::flag::Flag;
use crate::hall::{Fate, Layout, ALL_FATES, LAYOUTS};

/// What has to be remembered from record to record of one stream.
#[derive(Default)]
pub struct FateWatch {
    /// The fate that the line before tells.  A program that keeps it shows it
    /// again in the next line that has none.
    last: Option<Fate>,
    /// By that sample the pattern was forgotten.
    forgot: bool,
}

/// The names for a program whose records have these letters; its other lines
/// without a fate are told by words.
pub fn list(letters: &[char], others: &[&str]) -> Vec<String> {
    let of_one = |layout| all_of_layout(layout, names_of(layout, letters, others));
    LAYOUTS.into_iter().flat_map(of_one).collect()
}

fn all_of_layout(layout: &Layout, names: Vec<String>) -> Vec<String> {
    names.iter().map(|name| of_layout(layout, name)).collect()
}

fn names_of(layout: &Layout, letters: &[char], others: &[&str]) -> Vec<String> {
    let mut names = Vec::new();
    let can_be_dead = !layout.dead.is_empty();
    for fate in ALL_FATES {
        if fate == Fate::Dead && !can_be_dead {
            continue;
        }
        names.push(fate_name(fate));
        if matches!(fate, Fate::Dead | Fate::Stray) {
            names.push(flag_name(fate, true));
            names.push(flag_name(fate, false));
            names.push(first_after_name(fate));
        }
    }
    for &letter in letters {
        names.extend(full_stop_names(&told(letter, false)));
        // "a full stop for anything but an accepted cycle"
        if letter != 'C' {
            names.extend(full_stop_names(&told(letter, true)));
        }
    }
    names.extend(others.iter().flat_map(|told| full_stop_names(told)));
    names
}

fn fate_name(fate: Fate) -> String {
    format!("fate {}", fate.letter())
}

/// Of the sample that sets flag 15: it keeps its name.
fn flag_name(fate: Fate, live: bool) -> String {
    let word = if live { "live" } else { "masked" };
    format!("{} sets flag 15, {word}", fate_name(fate))
}

fn first_after_name(forgot: Fate) -> String {
    let first = fate_name(Fate::First);
    format!("{first} after {} forgot the pattern", forgot.letter())
}

/// The name of a full stop, and that of one after a line that has a letter.
fn full_stop_names(told: &str) -> [String; 2] {
    let name = format!("fate . of {told}");
    let after_a_letter = format!("{name} after a letter");
    [name, after_a_letter]
}

fn told(letter: char, accepted: bool) -> String {
    let word = if accepted { "accepted" } else { "refused" };
    format!("{letter} {word}")
}

impl FateWatch {
    /// The names of a record's line.
    pub fn names(
        &mut self,
        letter: char,
        before: &Drive,
        after: &Drive,
        answer: &Answer,
    ) -> Vec<String> {
        let names = match answer.fate {
            None => self.full_stop(&told(letter, answer.number == 0), before),
            Some(fate) => self.judged(fate, before, after),
        };
        *self = FateWatch {
            last: answer.fate,
            forgot: before.kept_pattern.is_some() && after.kept_pattern.is_none(),
        };
        names
    }

    /// The names of a line without a fate.
    pub fn full_stop(&self, told: &str, drive: &Drive) -> Vec<String> {
        let [name, after_a_letter] = full_stop_names(told);
        let mut names = vec![name];
        if self.last.is_some() {
            names.push(after_a_letter);
        }
        all_of_layout(drive.layout, names)
    }

    fn judged(&self, fate: Fate, before: &Drive, after: &Drive) -> Vec<String> {
        let mut names = vec![fate_name(fate)];
        let flag = Flag::HallPattern;
        if !flag.is_in(before.flags) && flag.is_in(after.flags) {
            names.push(flag_name(fate, flag.is_in(after.live_word())));
        }
        if let (Fate::First, true, Some(last)) = (fate, self.forgot, self.last) {
            names.push(first_after_name(last));
        }
        all_of_layout(before.layout, names)
    }
}
