//! Settings for a load: good ones, and ones that break a given rule.
//!
//! The limits are those of `settings::RULES`; here stands only where between
//! them a stream should go.

use super::Generator;
use crate::random::Random;
use crate::settings::{PerSetting, Relation, Setting, RULES, SETTINGS};

/// The numbers of a load, to be set by name.
pub type Numbers = PerSetting<u16>;

/// A level that another has to lie below: the usual one, near an end, or any.
fn level(random: &mut Random, setting: Setting, usual: i64) -> i64 {
    let (least, most) = setting.accepted_ends();
    match random.pick(&[
        Some(least),
        Some(least + 1),
        Some(usual),
        Some(most - 1),
        Some(most),
        None,
    ]) {
        None => random.between(least, most),
        Some(chosen) => chosen,
    }
}

/// Any number of the setting's range.
fn any(random: &mut Random, setting: Setting) -> i64 {
    random.between(setting.rule().least, setting.rule().most)
}

/// A number that keeps the setting's relation to another of this value.
fn related(random: &mut Random, setting: Setting, other: i64) -> i64 {
    let rule = setting.rule();
    let relation = rule.relation.expect("a setting with a relation");
    match relation {
        Relation::Below { .. } => random.leaning(rule.least, relation.edge(other)),
        Relation::NotBelow { .. } => random.leaning(relation.edge(other), rule.most),
    }
}

/// A number above a limit.
fn above(random: &mut Random, most: i64) -> i64 {
    let any = random.between(most + 1, 65535);
    random.pick(&[most + 1, most + 1, 65535, any])
}

/// A number just outside the setting's range: below it where there is room.
fn just_outside(setting: Setting) -> i64 {
    let rule = setting.rule();
    if rule.least > 0 {
        rule.least - 1
    } else {
        rule.most + 1
    }
}

impl Generator {
    /// 24 numbers that a load accepts.  Slow causes and long states are kept
    /// short, so that streams reach what follows them.
    pub(super) fn good_settings(&mut self) -> Numbers {
        use Setting::*;
        let random = &mut self.random;
        let mut settings = PerSetting([0_i64; SETTINGS]);
        settings[ControlMode] = any(random, ControlMode);
        let any_bits = any(random, FaultEnable);
        let most_bits = 65535 & !(1 << random.between(0, 15));
        settings[FaultEnable] = random.pick(&[65535, 65535, 0, any_bits, any_bits, most_bits]);

        let over = level(random, VdcOvLevel, 3000);
        settings[VdcOvLevel] = over;
        settings[VdcLvLevel] = related(random, VdcLvLevel, over);
        settings[CriticalOvLevel] = related(random, CriticalOvLevel, over);
        let heat = Tshutdown.rule();
        let any_heat = random.between(heat.least + 1, heat.most - 1);
        settings[Tshutdown] = random.pick(&[any_heat, any_heat, any_heat, heat.least, heat.most]);

        // Now and then the slow causes take their longest; or times whose
        // products (10 x 6554, 5 x 13108) leave 4 in sixteen bits, which a
        // count of that width would take for a short one.
        let longest = RotorLockTime.rule().most;
        let slow = random.pick(&[
            None,
            None,
            None,
            None,
            None,
            None,
            Some(longest),
            Some(6554),
        ]);
        settings[RotorLockTime] = slow.unwrap_or(random.pick(&[1, 1, 2, 3]));
        let slot_time = slow.map(|time| if time == 6554 { 13108 } else { time });
        settings[FluxFaultTime] = slot_time.unwrap_or(random.pick(&[1, 1, 2, 3, 4, 5, 7]));
        settings[HallTimeoutPeriod] = slow.unwrap_or(random.pick(&[1, 1, 2, 3]));

        let any_offset = any(random, HallAngleOffset);
        settings[HallAngleOffset] =
            random.pick(&[0, 1, 65535, 32767, 32768, any_offset, any_offset]);
        let any_speed = any(random, MinSpd);
        let most_speed = MinSpd.rule().most;
        settings[MinSpd] =
            random.pick(&[0, 1, 2, 100, 600, 4094, 4095, 4096, most_speed, any_speed]);
        let most_rate = SpdRampRate.rule().most;
        let odd_rate = random.between(0, most_rate / 2) * 2 + 1;
        settings[SpdRampRate] = random.pick(&[
            0, 1, 64, 333, 2047, 2048, 2049, most_rate, odd_rate, odd_rate,
        ]);
        let any_limit = any(random, MotorLim);
        let limit = MotorLim.rule();
        settings[MotorLim] = random.pick(&[
            limit.least,
            limit.least + 1,
            limit.most - 1,
            limit.most,
            any_limit,
            any_limit,
        ]);
        settings[OffsetPsc] = random.pick(&[7, 7, 7, 7, 7, 7, 6, 5]);
        settings[BtsChargeTime] = random.pick(&[0, 1, 2, 3, 5, 40]);
        settings[TCatchSpin] = random.pick(&[0, 1, 2, 3, 6]);
        let any_threshold = any(random, DirectStartThr);
        let most_threshold = DirectStartThr.rule().most;
        settings[DirectStartThr] =
            random.pick(&[0, 1, 300, most_threshold - 1, most_threshold, any_threshold]);
        settings[IsPulses] = random.pick(&[0, 0, 1, 2, 3, 5]);
        settings[ParkTime] = random.pick(&[0, 1, 2, 3, 6]);
        settings[OpenLoopRamp] = random.pick(&[0, 1, 65535]);

        let start = level(random, CmdStart, 400);
        settings[CmdStart] = start;
        settings[CmdStop] = related(random, CmdStop, start);
        let any_gain = any(random, CmdGain);
        settings[CmdGain] = random.pick(&[0, 1, 4095, 4096, 65535, any_gain, any_gain]);
        settings[RetryLimit] = random.pick(&[0, 1, 2, 3, RetryLimit.rule().most]);
        PerSetting(settings.0.map(|value| value as u16))
    }

    /// One of the settings that can be refused.
    pub(super) fn refusable_setting(&mut self) -> Setting {
        let refusable: Vec<Setting> = RULES
            .iter()
            .filter(|rule| rule.can_be_broken())
            .map(|rule| rule.setting)
            .collect();
        self.random.pick(&refusable)
    }

    /// 24 numbers of which the given setting is the first to break its rule.
    pub(super) fn bad_settings(&mut self, setting: Setting) -> Numbers {
        let mut settings = self.good_settings();
        let random = &mut self.random;
        let rule = setting.rule();
        let bad = match rule.relation {
            Some(relation) => {
                let edge = relation.edge(settings[relation.other()] as i64);
                let (nearest, further) = match relation {
                    Relation::Below { .. } => (edge + 1, above(random, edge)),
                    Relation::NotBelow { .. } => (edge - 1, random.between(0, edge - 1)),
                };
                random.pick(&[nearest, further, rule.most + 1])
            }
            None if rule.most == 65535 => rule.least - 1,
            None if rule.least == 0 => above(random, rule.most),
            None => {
                let above_range = above(random, rule.most);
                random.pick(&[rule.least - 1, above_range])
            }
        };
        settings[setting] = bad as u16;
        // A bound too low leaves nothing below it, whatever stands there.
        if let Some(Relation::Below { other, .. }) = rule.relation {
            if self.random.chance(200) {
                settings[other] = other.accepted_ends().0 as u16 - 1;
            }
        }
        // Now and then a later setting is bad too: the first one counts.
        if self.random.chance(300) {
            for later in [
                Setting::RotorLockTime,
                Setting::MotorLim,
                Setting::RetryLimit,
            ] {
                if later.place() > setting.place() {
                    settings[later] = just_outside(later) as u16;
                }
            }
        }
        settings
    }
}
