//! Episodes that wait out FAULT: 10,000 ticks each, so only some seeds.

use super::choose_tick::Command;
use super::mood::Mood;
use super::Generator;
use crate::record::Record;
use crate::settings::Setting;
use crate::state::State;
use crate::tick::FAULT_WAIT;

impl Generator {
    /// Into FAULT at once, from whatever state the mood has led to.
    fn trip(&mut self) {
        let mut fields = self.quiet_tick(Command::High);
        self.add_live_cause(&mut fields);
        self.emit(Record::Tick(fields));
    }

    /// Waits in FAULT until it is left, at most so many records.
    fn wait_in_fault(&mut self, most: i64) {
        for _ in 0..most {
            if self.drive.state != State::Fault {
                return;
            }
            self.step();
        }
    }

    /// Retries up to the limit, and one trip more that gets none.
    ///
    /// A stream of 20,000 records holds one wait and nearly a second one, so
    /// there the trip after the retry is cleared; longer streams hold more.
    pub(super) fn retries_to_the_limit(&mut self, variant: u64) {
        let waits = self.left / (FAULT_WAIT + 300);
        let limit = (waits - 1).clamp(1, 3);
        self.load_with(&[
            (Setting::ControlMode, 1),
            (Setting::RetryLimit, limit as u16),
            (Setting::OffsetPsc, 7),
        ]);
        // Offsets are measured, and no low is given since the load.
        self.hold_high(100);
        for wait in 0..=limit {
            self.mood = Mood::calm(&mut self.random);
            if self.left < FAULT_WAIT + 100 {
                break;
            }
            self.mood.fault_wait = Some(2 * FAULT_WAIT);
            // Half of the streams retry at the 10,000th tick itself.
            self.mood.fault_standing_when_due = (variant % 2) as i64;
            self.trip();
            let most = if wait < limit {
                2 * FAULT_WAIT
            } else {
                FAULT_WAIT + 100
            };
            self.wait_in_fault(most);
            self.mood.fault_wait = None;
            self.mood.fault_quiet = 0;
            // A retry has armed: some starts come without any low.
            if variant % 2 == 1 && self.drive.state == State::Stop {
                let record = Record::Tick(self.quiet_tick(Command::Low));
                self.emit(record);
            }
            let after = self.random.pick(&[10, 60, 200]);
            self.hold_high(after);
        }
        self.trip();
        self.steps(100);
        self.retries_given_back();
    }

    /// Only in streams long enough: a clear and a load each give back the
    /// retries, which shows in the next wait.
    fn retries_given_back(&mut self) {
        if self.left < 5 * FAULT_WAIT {
            return;
        }
        for clear_between in [true, false] {
            self.load_with(&[
                (Setting::ControlMode, 1),
                (Setting::RetryLimit, 1),
                (Setting::OffsetPsc, 7),
            ]);
            self.wait_for_retry();
            if clear_between {
                self.mood.fault_wait = None;
                self.trip();
                self.go_to_stop();
                self.wait_for_retry();
            }
        }
    }

    fn wait_for_retry(&mut self) {
        self.mood = Mood::calm(&mut self.random);
        self.mood.fault_wait = Some(2 * FAULT_WAIT);
        self.trip();
        self.wait_in_fault(2 * FAULT_WAIT);
        self.mood.fault_wait = None;
    }

    /// RetryLimit 0: due, and refused, until a clear comes.
    pub(super) fn retry_refused_at_limit_zero(&mut self) {
        self.load_with(&[(Setting::ControlMode, 1), (Setting::RetryLimit, 0)]);
        self.mood = Mood::calm(&mut self.random);
        self.mood.masked_cause = 100;
        self.mood.fault_wait = Some(FAULT_WAIT + 5);
        self.trip();
        self.wait_in_fault(FAULT_WAIT + 200);
        self.mood.fault_wait = None;
        self.steps(100);
    }

    /// Causes that stand when a retry is due, clears past that tick, and mode
    /// 0, which has no retry at all.
    pub(super) fn causes_at_the_exit(&mut self, kind: u64) {
        self.mood = Mood::calm(&mut self.random);
        self.stand_beyond_every_count();
        match kind {
            // A live cause stands at the 10,000th tick; a later tick retries.
            // A masked cause may stand at it.
            0 => {
                self.load_with(&[
                    (Setting::ControlMode, 1),
                    (Setting::RetryLimit, 2),
                    (Setting::FaultEnable, 3),
                ]);
                self.mood.masked_cause = 900;
                self.mood.fault_wait = Some(2 * FAULT_WAIT);
                self.mood.fault_standing_when_due = 5;
            }
            // A clear at the very tick at which a retry is due: it wins.
            1 => {
                self.load_with(&[(Setting::ControlMode, 1), (Setting::RetryLimit, 100)]);
                self.mood.fault_wait = Some(FAULT_WAIT - 1);
            }
            // Mode 0 waits for ever, until a clear comes.
            _ => {
                self.load_with(&[(Setting::ControlMode, 0), (Setting::RetryLimit, 100)]);
                self.mood.fault_wait = Some(FAULT_WAIT + 5);
            }
        }
        // Offsets are measured, so that arming shows at the exit.
        self.hold_high(150);
        self.trip();
        if kind == 1 {
            self.wait_to_the_due_tick();
        }
        self.wait_in_fault(FAULT_WAIT + 200);
        self.mood.fault_wait = None;
        self.hold_high(10);
        self.steps(100);
    }

    /// Ticks without clear until the next tick is the 10,000th.
    fn wait_to_the_due_tick(&mut self) {
        while self.drive.state == State::Fault
            && self.drive.ticks_in_state < FAULT_WAIT - 1
            && self.left > 0
        {
            self.mood.fault_quiet = 1;
            self.step();
        }
        self.mood.fault_standing = 0;
        self.mood.fault_quiet = 0;
    }

    /// Only in streams long enough: a cause that ends after FAULT's 65,536th
    /// tick must still get its retry.
    fn stand_beyond_every_count(&mut self) {
        if self.left < 80_000 {
            return;
        }
        self.load_with(&[(Setting::ControlMode, 1), (Setting::RetryLimit, 100)]);
        self.trip();
        for _ in 0..65_536 + self.random.between(0, 9) {
            let record = self.standing_tick(false);
            self.emit(record);
        }
        self.mood.fault_standing = 0;
        self.mood.fault_quiet = 100;
        self.wait_in_fault(100);
    }
}
