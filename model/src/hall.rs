//! Hall patterns: the layouts, the fate of a sample, the steps and the
//! angles.

/// The twelve angles: entry k is k times 30 degrees.
pub const ANGLES: [i64; 12] = [
    0, 5461, 10922, 16384, 21845, 27306, -32768, -27307, -21846, -16384, -10923, -5462,
];

/// How the sectors of a motor lie, by the number of its Hall sensors.  The
/// lists go by the clockwise order.
#[derive(Debug, PartialEq, Eq)]
pub struct Layout {
    pub sensors: i64,
    pub clockwise: &'static [i64],
    /// A cycle's pattern goes from 0 to this.
    pub most_pattern: i64,
    pub dead: &'static [i64],
    /// The entries of `ANGLES` for the middle of each sector and for the
    /// boundary at its clockwise end.
    middles: &'static [usize],
    boundaries: &'static [usize],
    /// What a step over the clockwise end of each sector counts.
    pub widths: &'static [i64],
}

pub static THREE_SENSORS: Layout = Layout {
    sensors: 3,
    // "Clockwise order is 1, 3, 2, 6, 4, 5, then 1."
    clockwise: &[1, 3, 2, 6, 4, 5],
    // "Hall pattern 0..7"
    most_pattern: 7,
    // "0 or 7: dead streak up by one"
    dead: &[0, 7],
    // "Middles for 1, 3, 2, 6, 4, 5: k = 11, 1, 3, 5, 7, 9."
    middles: &[11, 1, 3, 5, 7, 9],
    // "Boundaries 1/3, 3/2, 2/6, 6/4, 4/5, 5/1: k = 0, 2, 4, 6, 8, 10."
    boundaries: &[0, 2, 4, 6, 8, 10],
    // "position plus or minus 1"
    widths: &[1, 1, 1, 1, 1, 1],
};

/// M-101: "The small pump has H1 and H2 only."
pub static TWO_SENSORS: Layout = Layout {
    sensors: 2,
    // "the clockwise order is 1, 3, 2, 0"
    clockwise: &[1, 3, 2, 0],
    // "pattern above 3 with two sensors is 1"
    most_pattern: 3,
    // "The dead-pattern test does not apply."
    dead: &[],
    // "with middles -60, 30, 120 and 210"
    middles: &[10, 1, 4, 7],
    // "the sectors run from -120 to 0, 0 to 60, 60 to 180 and 180 to 240
    // degrees": their clockwise ends
    boundaries: &[0, 2, 6, 8],
    // "1 for 60 degrees, 2 for 120"
    widths: &[2, 1, 2, 1],
};

pub static LAYOUTS: [&Layout; 2] = [&THREE_SENSORS, &TWO_SENSORS];

/// "Each pattern from 0 to 7 falls in one group against the kept pattern".
/// With two sensors "1..6" reads as the patterns of that layout.  The groups
/// have the names of M-105: "The sample judgement must name it: first, same,
/// forward, back, dead or stray."
#[derive(Clone, Copy, Debug, PartialEq, Eq)]
pub enum Fate {
    /// "Any of 1..6 with none kept"
    First,
    /// "Same as kept"
    Same,
    /// "Next", that is one place on in clockwise order
    Forward,
    /// "or previous"
    Back,
    /// "0 or 7"
    Dead,
    /// "Another of 1..6"
    Stray,
}

pub const ALL_FATES: [Fate; 6] = [
    Fate::First,
    Fate::Same,
    Fate::Forward,
    Fate::Back,
    Fate::Dead,
    Fate::Stray,
];

impl Fate {
    /// "one letter (F, S, W, B, D, X ..)", in the order of the names: F and S
    /// being taken by first and same, forward is W and stray X.
    pub fn letter(self) -> char {
        match self {
            Fate::First => 'F',
            Fate::Same => 'S',
            Fate::Forward => 'W',
            Fate::Back => 'B',
            Fate::Dead => 'D',
            Fate::Stray => 'X',
        }
    }
}

impl Layout {
    /// "Setting 25 chooses 2 or 3 sensors".
    pub fn of(sensors: u16) -> Option<&'static Layout> {
        match sensors {
            2 => Some(&TWO_SENSORS),
            3 => Some(&THREE_SENSORS),
            _ => None,
        }
    }

    /// The place of a pattern in clockwise order, from 0.
    fn sector(&self, pattern: i64) -> usize {
        let mut sectors = self.clockwise.iter();
        sectors
            .position(|&one| one == pattern)
            .unwrap_or_else(|| panic!("pattern {pattern} has no sector"))
    }

    pub fn next_pattern(&self, pattern: i64) -> i64 {
        let sectors = self.clockwise.len();
        self.clockwise[(self.sector(pattern) + 1) % sectors]
    }

    pub fn previous_pattern(&self, pattern: i64) -> i64 {
        let sectors = self.clockwise.len();
        self.clockwise[(self.sector(pattern) + sectors - 1) % sectors]
    }

    /// The sample judgement.
    pub fn fate(&self, pattern: i64, kept: Option<i64>) -> Fate {
        if self.dead.contains(&pattern) {
            return Fate::Dead;
        }
        match kept {
            None => Fate::First,
            Some(kept) => {
                if pattern == kept {
                    Fate::Same
                } else if pattern == self.next_pattern(kept) {
                    Fate::Forward
                } else if pattern == self.previous_pattern(kept) {
                    Fate::Back
                } else {
                    Fate::Stray
                }
            }
        }
    }

    /// "A clockwise step adds the width of the sector left, a
    /// counter-clockwise one subtracts the width of the sector entered".
    pub fn step(&self, kept: i64, pattern: i64) -> i64 {
        if pattern == self.next_pattern(kept) {
            self.widths[self.sector(kept)]
        } else {
            -self.widths[self.sector(pattern)]
        }
    }

    /// "A first pattern gives its sector's middle".
    pub fn middle_angle(&self, pattern: i64) -> i64 {
        ANGLES[self.middles[self.sector(pattern)]]
    }

    /// "a step the boundary crossed": the boundary between a pattern and the
    /// next in clockwise order is listed under the former.
    pub fn boundary_angle(&self, kept: i64, pattern: i64) -> i64 {
        if pattern == self.next_pattern(kept) {
            ANGLES[self.boundaries[self.sector(kept)]]
        } else {
            ANGLES[self.boundaries[self.sector(pattern)]]
        }
    }
}

/// "HallAngleOffset is **added**, modulo 2^16", the sum read as signed 16
/// bits.
pub fn with_offset(angle: i64, hall_angle_offset: i64) -> i64 {
    let sum = (angle + hall_angle_offset).rem_euclid(65536);
    if sum >= 32768 {
        sum - 65536
    } else {
        sum
    }
}
