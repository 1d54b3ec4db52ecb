//! The fields of a cycle.

use super::mood::HallMood;
use super::Generator;
use crate::cycle::CycleFields;
use crate::drive::Pair;
use crate::hall::Fate;
use crate::record::Record;

/// What a cycle does, seen from the kept pattern.
#[derive(Clone, Copy, Debug, PartialEq, Eq)]
pub enum Wish {
    Next,
    Previous,
    Same,
    Dead,
    Stray,
}

impl Generator {
    /// A cycle as the mood has it.
    pub(super) fn cycle_record(&mut self) -> Record {
        let pattern = self.mood_pattern();
        self.cycle_with(pattern)
    }

    /// A cycle that does what is wished.
    pub(super) fn wished_cycle(&mut self, wish: Wish) -> Record {
        let pattern = self.wished_pattern(wish);
        self.cycle_with(pattern)
    }

    pub(super) fn cycle_with(&mut self, pattern: i64) -> Record {
        let most = self.mood.most_sample;
        let samples = Pair {
            first: self.random.leaning(0, most),
            second: self.random.between(0, most),
        };
        Record::Cycle(CycleFields { pattern, samples })
    }

    /// With no pattern kept, anything but a dead sample is a first pattern.
    /// Two sensors have no dead sample: a stray one is what is nearest to it.
    fn wished_pattern(&mut self, wish: Wish) -> i64 {
        let layout = self.drive.layout;
        if wish == Wish::Dead && !layout.dead.is_empty() {
            return self.random.pick(layout.dead);
        }
        let Some(kept) = self.drive.kept_pattern else {
            return self.random.pick(layout.clockwise);
        };
        match wish {
            Wish::Next => layout.next_pattern(kept),
            Wish::Previous => layout.previous_pattern(kept),
            Wish::Same => kept,
            Wish::Dead | Wish::Stray => {
                let all = layout.clockwise.iter().copied();
                let strays: Vec<i64> = all
                    .filter(|&pattern| layout.fate(pattern, Some(kept)) == Fate::Stray)
                    .collect();
                self.random.pick(&strays)
            }
        }
    }

    fn mood_pattern(&mut self) -> i64 {
        let wish = match self.mood.hall {
            HallMood::Forward => self.wish_by_chances([960, 5, 25, 5]),
            HallMood::Backward => self.wish_by_chances([5, 960, 25, 5]),
            HallMood::Rest => self.wish_by_chances([0, 0, 998, 1]),
            HallMood::Wander => self.wish_by_chances([400, 400, 190, 5]),
            HallMood::Noisy => self.wish_by_chances([120, 120, 160, 300]),
            HallMood::Any => return self.random.between(0, self.drive.layout.most_pattern),
            HallMood::Dead => Wish::Dead,
        };
        self.wished_pattern(wish)
    }

    /// Chances of next, previous, same and dead; the rest of the thousand is
    /// stray.
    fn wish_by_chances(&mut self, chances: [i64; 4]) -> Wish {
        let wishes = [Wish::Next, Wish::Previous, Wish::Same, Wish::Dead];
        let mut drawn = self.random.between(0, 999);
        for (wish, chance) in wishes.into_iter().zip(chances) {
            if drawn < chance {
                return wish;
            }
            drawn -= chance;
        }
        Wish::Stray
    }
}
