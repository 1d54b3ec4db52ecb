//! Still counts of 4096, and Hall time-outs in MOTORRUN.

use super::choose_cycle::Wish;
use super::choose_load::{Told, THREE, TWO, UNTOLD};
use super::choose_tick::Command;
use super::mood::{HallMood, Mood};
use super::{all_but, Generator};
use crate::causes::FULL_STILL_COUNT;
use crate::flag::Flag;
use crate::record::Record;
use crate::settings::Setting;
use crate::state::State;

impl Generator {
    /// A still count takes 4096 cycles to fill, so a stream of 20,000 records
    /// holds three of the four kinds at most.
    pub(super) fn hall_time_outs(&mut self, variant: u64) {
        match variant % 3 {
            0 => {
                self.masked_time_out();
                self.time_out_of_dead_samples();
                self.broken_time_out();
            }
            1 => {
                self.broken_time_out();
                self.time_out_of_dead_samples();
            }
            _ => {
                self.time_out_over_a_step();
                self.time_out_of_dead_samples();
                self.long_time_out();
            }
        }
    }

    /// Into MOTORRUN with the shaft at rest; gives the ticks of a time-out.
    fn rest_in_motor_run(&mut self, fault_enable: u16, hall: HallMood, told: Told) -> i64 {
        let period = self.random.between(1, 3) as u16;
        let given = [
            (Setting::FaultEnable, fault_enable),
            (Setting::HallTimeoutPeriod, period),
            (Setting::TCatchSpin, 0),
            (Setting::IsPulses, 1),
        ];
        self.load_with_sensors(&given, told);
        self.mood = Mood::calm(&mut self.random);
        self.mood.hall = hall;
        self.go_to(State::MotorRun, 1000);
        10 * period as i64
    }

    /// Bit 14 masked: the cause stands and nothing happens.
    fn masked_time_out(&mut self) {
        let fault_enable = all_but(Flag::HallTimeOut);
        let needed = self.rest_in_motor_run(fault_enable, HallMood::Rest, UNTOLD);
        self.rest_until_still();
        self.motor_run_ticks(needed + 5);
    }

    /// 10 x 6554 ticks, which leaves 4 in sixteen bits: far from a time-out.
    fn long_time_out(&mut self) {
        self.load_with(&[
            (Setting::FaultEnable, 65535),
            (Setting::HallTimeoutPeriod, 6554),
            (Setting::TCatchSpin, 0),
            (Setting::IsPulses, 1),
        ]);
        self.mood = Mood::calm(&mut self.random);
        self.go_to(State::MotorRun, 1000);
        self.rest_until_still();
        self.motor_run_ticks(40);
    }

    /// A step ends the run one tick before it would stand; rest begins it
    /// anew.
    fn broken_time_out(&mut self) {
        let told = self.random.pick(&[TWO, THREE]);
        let needed = self.rest_in_motor_run(65535, HallMood::Rest, told);
        self.rest_until_still();
        self.motor_run_ticks(needed - 1);
        let record = self.wished_cycle(Wish::Next);
        self.emit(record);
        self.motor_run_ticks(2);
        self.rest_until_still();
        self.motor_run_ticks(needed);
        self.steps(30);
    }

    /// A step and 4096 still cycles between two ticks: the count is looked at
    /// once per tick, so the run goes on.
    fn time_out_over_a_step(&mut self) {
        let needed = self.rest_in_motor_run(65535, HallMood::Rest, UNTOLD);
        self.rest_until_still();
        self.motor_run_ticks(needed / 2);
        let record = self.wished_cycle(Wish::Previous);
        self.emit(record);
        self.rest_until_still();
        self.motor_run_ticks(needed - needed / 2);
        self.steps(30);
    }

    /// Dead samples only, bit 15 masked: the load has zeroed a full count, and
    /// it grows again with none kept.  A first pattern then ends the run.  Only
    /// three sensors have dead samples.
    fn time_out_of_dead_samples(&mut self) {
        let fault_enable = all_but(Flag::HallPattern);
        let needed = self.rest_in_motor_run(fault_enable, HallMood::Dead, UNTOLD);
        self.dead_ticks(needed + 2);
        while self.drive.still_count < FULL_STILL_COUNT && self.left > 0 {
            let record = self.wished_cycle(Wish::Dead);
            self.emit(record);
        }
        self.dead_ticks(needed - 1);
        if self.random.chance(500) {
            let record = self.wished_cycle(Wish::Same);
            self.emit(record);
        }
        self.motor_run_ticks(needed + 2);
        self.steps(30);
    }

    /// Cycles without a newly kept pattern until the still count is full,
    /// with a dead or a stray sample now and then.
    fn rest_until_still(&mut self) {
        for _ in 0..4200 {
            if self.drive.still_count == FULL_STILL_COUNT && self.random.chance(300) {
                return;
            }
            let wish = match self.random.between(0, 399) {
                0 if self.drive.dead_streak == 0 => Wish::Dead,
                1 if self.drive.stray_streak == 0 => Wish::Stray,
                _ => Wish::Same,
            };
            let record = self.wished_cycle(wish);
            self.emit(record);
        }
    }

    /// Ticks that keep MOTORRUN, with a cycle at rest now and then.
    fn motor_run_ticks(&mut self, count: i64) {
        self.ticks_with_cycles(count, Wish::Same);
    }

    fn dead_ticks(&mut self, count: i64) {
        self.ticks_with_cycles(count, Wish::Dead);
    }

    fn ticks_with_cycles(&mut self, count: i64, wish: Wish) {
        for _ in 0..count {
            if self.random.chance(100) {
                let record = self.wished_cycle(wish);
                self.emit(record);
            }
            let record = Record::Tick(self.quiet_tick(Command::NotLow));
            self.emit(record);
        }
    }
}
