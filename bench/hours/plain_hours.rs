//! The hours rules in plain Rust: the same algorithm as crates/hours_rules, with no contract.
use std::cmp::min;

#[derive(Clone, Copy, PartialEq, Eq, Debug)]
pub enum Mark { Drive, Work, Ready, Off }

#[derive(Clone, Copy, PartialEq, Eq, Debug)]
pub enum Kind { Plain, Daily, Weekly }

#[derive(Clone, Copy, PartialEq, Eq, Debug)]
pub enum Rule { H1 = 1, H2, H3, H4, H5, H6, H7, H8, H9, H10, H11, H12 }

const RULES: [Rule; 12] = [Rule::H1, Rule::H2, Rule::H3, Rule::H4, Rule::H5, Rule::H6, Rule::H7, Rule::H8, Rule::H9, Rule::H10, Rule::H11, Rule::H12];

#[derive(Clone, Copy, PartialEq, Eq, Debug)]
pub struct Broken { pub rule: Rule, pub minute: u32 }

#[derive(Clone, Copy, PartialEq, Eq, Debug)]
pub enum Verdict { Lawful, Broken(Broken) }

#[derive(Clone, Copy, Debug)]
pub struct Stint { pub mark: Mark, pub minutes: u32, pub kind: Kind }

pub struct History { pub prev_weekly: u32, pub stints: Vec<Stint>, pub open_off: u32, pub prev_drive: u32, pub work16: [u32; 16], pub owed: u32, pub due: u32 }

#[derive(Clone, Copy, Debug)]
pub struct Stay { pub ready: u32, pub off: u32, pub kind: Kind }

#[derive(Clone, Copy, Debug)]
pub struct Clock {
    pub at: u32, pub off: u32, pub day_from: i32, pub rest_from: i32, pub period: u32, pub half: bool,
    pub drive_day: u32, pub long_days: u32, pub split: bool, pub reduced: u32, pub prev_weekly: u32,
    pub work_run: u32, pub work_day: u32, pub pause_day: u32, pub drive_week: u32, pub work_week: u32,
    pub prev_drive: u32, pub work_before: u32, pub owed: u32, pub due: i32,
}

const UNLIMITED: u32 = 20000;

impl Mark {
    fn is_drive(self) -> bool { self == Mark::Drive }
    fn is_working(self) -> bool { matches!(self, Mark::Drive | Mark::Work) }
}

impl Kind {
    fn is_rest(self) -> bool { self != Kind::Plain }
}

pub fn least_run(kind: Kind, weekly: u32, owed: u32) -> u32 {
    match kind {
        Kind::Plain => 0,
        Kind::Daily => 540,
        Kind::Weekly => if weekly < 2700 || owed > 0 { 2700 } else { 1440 },
    }
}

fn left_until(limit: u32, from: i32, at: u32) -> u32 {
    let used = at as i32 - from;
    if used <= limit as i32 { (limit as i32 - used).unsigned_abs() } else { 0 }
}

impl Clock {
    fn ends_paying(&self, kind: Kind) -> bool {
        match kind {
            Kind::Plain => false,
            Kind::Daily => self.off >= 660 + self.owed,
            Kind::Weekly => self.off >= 2700 + self.owed,
        }
    }

    fn end_run(&self, kind: Kind) -> Clock {
        if self.off == 0 {
            return *self;
        }
        let rest = self.off >= 1 && kind.is_rest();
        let weekly = self.off >= 1 && kind == Kind::Weekly;
        let full = self.off >= 45 || (self.off >= 30 && self.half);
        let part = self.off >= 15;
        let long = rest && self.drive_day > 540 && self.off < self.at;
        let reduced = rest && kind == Kind::Daily && !self.split
            && (self.off < 660 || self.at as i32 - self.day_from - self.off as i32 > 780);
        let paying = self.ends_paying(kind);
        let owing = weekly && self.off < 2700 && self.owed == 0;
        Clock {
            at: self.at,
            off: 0,
            day_from: if rest { self.at as i32 } else { self.day_from },
            rest_from: if weekly { self.at as i32 } else { self.rest_from },
            period: if full { 0 } else { self.period },
            half: !full && (part || self.half),
            drive_day: if rest { 0 } else { self.drive_day },
            long_days: self.long_days + long as u32,
            split: !rest && (self.off >= 180 || self.split),
            reduced: if weekly { 0 } else { self.reduced + reduced as u32 },
            prev_weekly: if weekly { self.off } else { self.prev_weekly },
            work_run: if part { 0 } else { self.work_run },
            work_day: if rest { 0 } else { self.work_day },
            pause_day: if rest { 0 } else { min(45, self.pause_day + if part { self.off } else { 0 }) },
            drive_week: self.drive_week,
            work_week: self.work_week,
            prev_drive: self.prev_drive,
            work_before: self.work_before,
            owed: if paying { 0 } else if owing { 2700 - self.off } else { self.owed },
            due: if paying { 0 } else if owing { ((self.at.div_ceil(10080) + 3) * 10080) as i32 } else { self.due },
        }
    }

    fn tick(&self, mark: Mark, minutes: u32) -> Clock {
        let driven = if mark.is_drive() { minutes } else { 0 };
        let worked = if mark.is_working() { minutes } else { 0 };
        Clock {
            at: self.at + minutes,
            period: self.period + driven,
            drive_day: self.drive_day + driven,
            drive_week: self.drive_week + driven,
            work_run: self.work_run + worked,
            work_day: self.work_day + worked,
            work_week: self.work_week + worked,
            ..*self
        }
    }

    fn rest(&self, minutes: u32) -> Clock {
        Clock { at: self.at + minutes, off: self.off + minutes, ..*self }
    }

    fn day_left(&self) -> u32 { left_until(900, self.day_from, self.at) }

    fn rest_left(&self) -> u32 { left_until(8640, self.rest_from, self.at) }

    fn debt_left(&self) -> u32 {
        if self.owed == 0 {
            return UNLIMITED;
        }
        min(UNLIMITED, left_until(0, self.due - (660 + self.owed) as i32, self.at))
    }

    fn drive_left(&self) -> u32 {
        let limit: u32 = if self.long_days < 2 { 600 } else { 540 };
        limit.saturating_sub(self.drive_day)
    }

    fn work_left(&self) -> u32 {
        min(3600u32.saturating_sub(self.work_week), 48960u32.saturating_sub(self.work_week + self.work_before))
    }

    fn pause_left(&self) -> u32 {
        if self.pause_day >= 45 {
            return UNLIMITED;
        }
        let limit: u32 = if self.pause_day < 30 { 360 } else { 540 };
        limit.saturating_sub(self.work_day)
    }

    fn is_short(&self, kind: Kind) -> bool { self.off >= 1 && self.off < least_run(kind, self.prev_weekly, self.owed) }

    fn room(&self, ended: &Clock, mark: Mark, kind: Kind, rule: Rule) -> u32 {
        let limit_if = |test: bool, limit: u32| if test { limit } else { UNLIMITED };
        let drive = mark.is_drive();
        let working = mark.is_working();
        match rule {
            Rule::H1 => limit_if(drive, 270u32.saturating_sub(ended.period)),
            Rule::H2 => limit_if(drive, ended.drive_left()),
            Rule::H3 => ended.day_left(),
            Rule::H4 => limit_if(ended.reduced > 3, 0),
            Rule::H5 => limit_if(self.is_short(kind), 0),
            Rule::H6 => ended.rest_left(),
            Rule::H7 => limit_if(drive, 3360u32.saturating_sub(ended.drive_week)),
            Rule::H8 => limit_if(drive, 5400u32.saturating_sub(ended.drive_week + ended.prev_drive)),
            Rule::H9 => limit_if(working, ended.work_left()),
            Rule::H10 => limit_if(working, 360u32.saturating_sub(ended.work_run)),
            Rule::H11 => limit_if(working, ended.pause_left()),
            Rule::H12 => ended.debt_left(),
        }
    }

    fn duty_room(&self, ended: &Clock, kind: Kind) -> u32 {
        if ended.reduced > 3 || self.is_short(kind) {
            return 0;
        }
        ended.day_left().min(ended.rest_left()).min(ended.debt_left())
    }

    fn work_room(&self) -> u32 {
        self.work_left().min(360u32.saturating_sub(self.work_run)).min(self.pause_left())
    }

    fn drive_room(&self) -> u32 {
        270u32.saturating_sub(self.period).min(self.drive_left())
            .min(3360u32.saturating_sub(self.drive_week))
            .min(5400u32.saturating_sub(self.drive_week + self.prev_drive))
    }

    fn least_room(&self, ended: &Clock, mark: Mark, kind: Kind, minutes: u32) -> u32 {
        let duty = minutes.min(self.duty_room(ended, kind));
        if !mark.is_working() {
            return duty;
        }
        let work = duty.min(ended.work_room());
        if !mark.is_drive() {
            return work;
        }
        work.min(ended.drive_room())
    }

    #[cold]
    fn fault_after(&self, ended: &Clock, mark: Mark, kind: Kind, least: u32) -> Option<Broken> {
        RULES.iter().find(|rule| self.room(ended, mark, kind, **rule) <= least).map(|rule| Broken { rule: *rule, minute: self.at + least })
    }

    fn first_fault(&self, ended: &Clock, mark: Mark, kind: Kind, minutes: u32) -> Option<Broken> {
        let least = self.least_room(ended, mark, kind, minutes);
        if minutes <= least {
            return None;
        }
        self.fault_after(ended, mark, kind, least)
    }

    fn on_duty(&self, mark: Mark, kind: Kind, minutes: u32) -> Result<Clock, Broken> {
        if minutes == 0 {
            return Ok(*self);
        }
        let ended = self.end_run(kind);
        match self.first_fault(&ended, mark, kind, minutes) {
            Some(broken) => Err(broken),
            None => Ok(ended.tick(mark, minutes)),
        }
    }
}

pub fn go(clock: &Clock, stay: Stay, mark: Mark, minutes: u32) -> Result<Clock, Broken> {
    let waited = clock.on_duty(Mark::Ready, Kind::Plain, stay.ready)?;
    waited.rest(stay.off).on_duty(mark, stay.kind, minutes)
}

pub fn start(history: &History) -> Clock {
    let mut clock = Clock {
        at: 0, off: 0, day_from: 0, rest_from: 0, period: 0, half: false, drive_day: 0, long_days: 0, split: false,
        reduced: 0, prev_weekly: history.prev_weekly, work_run: 0, work_day: 0, pause_day: 0, drive_week: 0,
        work_week: 0, prev_drive: history.prev_drive, work_before: history.work16.iter().sum(),
        owed: history.owed, due: (history.due * 10080) as i32,
    };
    let mut declared = Kind::Plain;
    for stint in &history.stints {
        clock = match stint.mark {
            Mark::Off => clock.rest(stint.minutes),
            mark => clock.end_run(declared).tick(mark, stint.minutes),
        };
        declared = stint.kind;
    }
    let clock = clock.rest(history.open_off);
    Clock {
        at: 0,
        day_from: clock.day_from - clock.at as i32,
        rest_from: clock.rest_from - clock.at as i32,
        long_days: 0,
        drive_week: 0,
        work_week: 0,
        ..clock
    }
}

pub fn judge(history: &History, line: &[Stint]) -> Verdict {
    let mut clock = start(history);
    let mut declared = Kind::Plain;
    for stint in line {
        if stint.mark == Mark::Off {
            clock = clock.rest(stint.minutes);
            declared = stint.kind;
        } else {
            match clock.on_duty(stint.mark, declared, stint.minutes) {
                Ok(next) => clock = next,
                Err(broken) => return Verdict::Broken(broken),
            }
            declared = Kind::Plain;
        }
    }
    Verdict::Lawful
}

// What the benches draw: the next number, and a stay by a number.
pub fn next(seed: u32) -> u32 { seed.wrapping_mul(1664525).wrapping_add(1013904223) }

pub fn stay_of(pick: u32) -> Stay {
    let (kind, ready, off) = match pick {
        0 => (Kind::Daily, 0, 660),
        1 => (Kind::Daily, 0, 540),
        2 => (Kind::Plain, 0, 180),
        3 => (Kind::Plain, 0, 45),
        4 => (Kind::Plain, 0, 45),
        5 => (Kind::Plain, 10, 30),
        6 => (Kind::Plain, 0, 15),
        7 => (Kind::Plain, 30, 15),
        8 => (Kind::Plain, 20, 0),
        9 => (Kind::Weekly, 0, 2700),
        _ => (Kind::Plain, 0, 0),
    };
    Stay { ready, off, kind }
}
