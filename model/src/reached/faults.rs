//! Exits from FAULT, and what keeps a drive there.

use super::{add_all, LastExit, Reached, Seen};
use crate::flag::Flag;
use crate::settings::Setting;
use crate::state::State;
use crate::tick::FAULT_WAIT;
use crate::tick_fields::TickFields;

const FIRST_RETRY: &str = "exit by retry number 1";

counted_names! {
    Exit {
        ClearInMode0 => "exit by clear, mode 0",
        ClearInMode1 => "exit by clear, mode 1",
        LateClearInMode0 => "exit by clear, mode 0, from the 10,000th tick on",
        LateClearInMode1 => "exit by clear, mode 1, from the 10,000th tick on",
        ClearWhereRetryWasDue => "exit by clear where a retry was due as well",
        ClearZeroesRetries => "exit by clear zeroes retries",
        RetryWhenDue => "exit by retry at the 10,000th tick",
        RetryLater => "exit by retry after the 10,000th tick",
        RetryBeyondEveryCount => "exit by retry after the 65,536th tick (long)",
        RetryReachesLimit => "exit by retry that reaches the limit",
        ClearWithMaskedCause => "exit by clear with a masked cause standing",
        RetryWithMaskedCause => "exit by retry with a masked cause standing",
        WithLow => "exit with a low at that tick",
        WithStrayFlag => "exit with flag 15 live from stray samples",
        AtFirstTick => "exit at FAULT's first tick",
        MaskedCauseFlaggedAgain => "masked cause of an exit flagged again at the next tick",
        SecondRetry => "exit by retry number 2 (long)",
        ThirdRetry => "exit by retry number 3 (long)",
    }
}

counted_names! {
    NoExit {
        RetryDueWithLiveCause => "no exit: retry due with a live cause standing",
        RetryDueWithLimitZero => "no exit: retry due with RetryLimit 0",
        RetryDueWithLimitUsedUp => "no exit: retry due with retries used up to a limit above 0 (long)",
        LastTickBeforeDue => "no exit: 9,999th tick in mode 1 with retries left",
        Mode0WithoutClear => "no exit: mode 0 from the 10,000th tick on without clear",
        NeitherClearNorDue => "no exit: neither clear nor due",
    }
}

pub fn add_to_list(list: &mut Vec<String>) {
    add_all(list, Exit::ALL);
    add_all(list, NoExit::ALL);
    list.push(FIRST_RETRY.to_string());
    for flag in holding_flags() {
        list.push(standing_name(flag));
    }
}

/// The flags whose causes can stand in FAULT.
fn holding_flags() -> impl Iterator<Item = Flag> {
    let flags = Flag::OF_CAUSES.into_iter();
    flags.filter(|flag| !Flag::COUNTED.contains(flag))
}

fn standing_name(flag: Flag) -> String {
    let flag = flag.number();
    format!("no exit: clear with the live cause of flag {flag} standing")
}

impl Reached {
    pub(super) fn observe_faults(&mut self, seen: &Seen, fields: &TickFields) {
        let before = seen.before;
        let causes = before.counted(fields).standing_causes(fields);
        let again = causes & self.watch.masked_at_exit & seen.after.flags;
        self.count_if(again != 0, Exit::MaskedCauseFlaggedAgain);
        self.watch.masked_at_exit = 0;
        if before.state != State::Fault {
            return;
        }
        let live = causes & before.settings.live_bits();
        let tick = before.ticks_in_state + 1;
        if seen.after.state == State::Stop {
            self.count_if(causes != 0 && fields.clear == 1, Exit::ClearWithMaskedCause);
            self.count_if(causes != 0 && fields.clear == 0, Exit::RetryWithMaskedCause);
            self.count_if(fields.is_low(&before.settings), Exit::WithLow);
            let strayed = Flag::HallPattern.is_in(before.live_word()) && before.dead_streak < 2;
            self.count_if(strayed, Exit::WithStrayFlag);
            self.count_if(tick == 1, Exit::AtFirstTick);
            self.watch.masked_at_exit = causes;
            self.watch.low_since_exit = false;
            if fields.clear == 1 {
                self.watch.last_exit = LastExit::Clear;
                self.observe_clear(seen, tick);
            } else {
                self.watch.last_exit = LastExit::Retry;
                self.observe_retry(seen, tick);
            }
        } else {
            self.observe_no_exit(seen, fields, live, tick);
        }
    }

    fn observe_clear(&mut self, seen: &Seen, tick: i64) {
        let before = seen.before;
        let mode_1 = before.settings[Setting::ControlMode] == 1;
        let late = tick >= FAULT_WAIT;
        self.count_if(!mode_1, Exit::ClearInMode0);
        self.count_if(mode_1, Exit::ClearInMode1);
        self.count_if(!mode_1 && late, Exit::LateClearInMode0);
        self.count_if(mode_1 && late, Exit::LateClearInMode1);
        let left = before.retries_used < before.settings[Setting::RetryLimit];
        self.count_if(mode_1 && late && left, Exit::ClearWhereRetryWasDue);
        self.count_if(before.retries_used > 0, Exit::ClearZeroesRetries);
    }

    fn observe_retry(&mut self, seen: &Seen, tick: i64) {
        self.count_if(tick == FAULT_WAIT, Exit::RetryWhenDue);
        self.count_if(tick > FAULT_WAIT, Exit::RetryLater);
        self.count_if(tick > 65_536, Exit::RetryBeyondEveryCount);
        let used = seen.after.retries_used;
        self.count_if(
            used == seen.after.settings[Setting::RetryLimit],
            Exit::RetryReachesLimit,
        );
        match used {
            1 => self.count(FIRST_RETRY),
            2 => self.count(Exit::SecondRetry),
            3 => self.count(Exit::ThirdRetry),
            _ => {}
        }
    }

    fn observe_no_exit(&mut self, seen: &Seen, fields: &TickFields, live: i64, tick: i64) {
        let before = seen.before;
        let limit = before.settings[Setting::RetryLimit];
        let left = before.retries_used < limit;
        if fields.clear == 1 {
            for flag in holding_flags() {
                self.count_if(live == flag.bit(), standing_name(flag));
            }
            return;
        }
        let due = tick >= FAULT_WAIT;
        if before.settings[Setting::ControlMode] == 1 {
            self.count_if(due && left && live != 0, NoExit::RetryDueWithLiveCause);
            self.count_if(
                due && limit == 0 && live == 0,
                NoExit::RetryDueWithLimitZero,
            );
            self.count_if(
                due && limit > 0 && !left && live == 0,
                NoExit::RetryDueWithLimitUsedUp,
            );
            self.count_if(
                tick == FAULT_WAIT - 1 && left && live == 0,
                NoExit::LastTickBeforeDue,
            );
        } else {
            self.count_if(due && live == 0, NoExit::Mode0WithoutClear);
        }
        self.count_if(!due && live == 0, NoExit::NeitherClearNorDue);
    }
}
