//! The hours rules once more, for the enumeration: what a driver has behind him at a minute, moved on act by act. What this walk
//! lets pass is judged again by `rules`, which counts everything afresh at every minute.

use crate::weeks::{Kind, Mark, Past, WEEK};

#[derive(Clone, Copy, PartialEq, Eq, Debug)]
pub struct Walk {
    /// the week minute reached; negative in the history
    pub at: i64,
    /// the off minutes up to here, and what they were declared to be
    off: i64,
    kind: Kind,
    day_from: i64,
    weekly_end: i64,
    weekly_length: i64,
    reduced: u32,
    long_days: u32,
    day_drive: u32,
    day_work: u32,
    day_paused: i64,
    has_long_pause: bool,
    period_drive: u32,
    pub has_first_part: bool,
    work_since_pause: u32,
    week_drive: u32,
    week_work: u32,
    owed: i64,
    due: i64,
    prev_drive: u32,
    work_before: u32,
}

impl Walk {
    /// At Monday 00:00 after a history. Nothing is judged on the way.
    pub fn after(past: &Past) -> Walk {
        let total: i64 = past.stints.iter().map(|stint| stint.minutes as i64).sum::<i64>() + past.open_off as i64;
        let mut walk = Walk {
            at: -total, off: 0, kind: Kind::Plain, day_from: -total, weekly_end: -total, weekly_length: past.prev_weekly as i64,
            reduced: 0, long_days: 0, day_drive: 0, day_work: 0, day_paused: 0, has_long_pause: false, period_drive: 0,
            has_first_part: false, work_since_pause: 0, week_drive: 0, week_work: 0, owed: past.owed as i64,
            due: past.due_weeks as i64 * WEEK as i64, prev_drive: past.prev_drive, work_before: past.work16.iter().sum(),
        };
        for stint in &past.stints {
            match stint.mark {
                Mark::Off => walk.rest(stint.minutes, stint.kind),
                mark => {
                    walk.end_run();
                    walk.count(mark, stint.minutes);
                }
            }
        }
        walk.rest(past.open_off, Kind::Plain);
        (walk.week_drive, walk.week_work) = (0, 0);
        walk
    }

    pub fn open(&self) -> i64 { self.off }

    pub fn owed(&self) -> i64 { self.owed }

    /// Off minutes more; also none, to say what the open run is.
    pub fn rest(&mut self, minutes: u32, kind: Kind) {
        self.at += minutes as i64;
        self.off += minutes as i64;
        self.kind = kind;
    }

    /// So many on-duty minutes more, where none of them breaks a rule. On the way every count only grows, and each rule but the one
    /// on a rest's length, which the first minute meets, is a limit on what grows: the last minute keeps it where each one does.
    pub fn go(&mut self, mark: Mark, minutes: u32) -> bool {
        if minutes == 0 {
            return true;
        }
        let is_long_enough = self.ends_long_enough();
        self.end_run();
        self.count(mark, minutes);
        is_long_enough && self.keeps_rules(mark)
    }

    fn ends_long_enough(&self) -> bool {
        match self.kind {
            _ if self.off == 0 => true,
            Kind::Plain => true,
            Kind::Daily => self.off >= 540,
            Kind::Weekly => self.off >= if self.weekly_length < 2_700 || self.owed > 0 { 2_700 } else { 1_440 },
        }
    }

    /// The off run before this minute, if there is one, has ended.
    fn end_run(&mut self) {
        let (off, kind) = (self.off, self.kind);
        (self.off, self.kind) = (0, Kind::Plain);
        if off == 0 {
            return;
        }
        let began = self.at - off;
        if off >= 15 {
            self.work_since_pause = 0;
            self.day_paused += off;
        }
        if off >= 45 || (off >= 30 && self.has_first_part) {
            (self.period_drive, self.has_first_part) = (0, false);
        } else if off >= 15 {
            self.has_first_part = true;
        }
        if kind == Kind::Plain {
            self.has_long_pause |= off >= 180;
            return;
        }
        let is_reduced = !self.has_long_pause && (off < 660 || began - self.day_from > 780);
        self.reduced += (kind == Kind::Daily && is_reduced) as u32;
        self.long_days += (self.day_drive > 540 && began > 0) as u32;
        self.end_debt(off, kind);
        (self.day_from, self.day_drive, self.day_work, self.day_paused, self.has_long_pause) = (self.at, 0, 0, 0, false);
        if kind == Kind::Weekly {
            (self.weekly_end, self.weekly_length, self.reduced) = (self.at, off, 0);
        }
    }

    /// A rest pays what is owed where it is so much longer; a weekly rest below 2,700 minutes leaves a debt.
    fn end_debt(&mut self, off: i64, kind: Kind) {
        let least = if kind == Kind::Daily { 660 } else { 2_700 };
        if off >= least + self.owed {
            (self.owed, self.due) = (0, 0);
        } else if kind == Kind::Weekly && off < 2_700 && self.owed == 0 {
            self.owed = 2_700 - off;
            self.due = ((self.at - 1).div_euclid(WEEK as i64) + 4) * WEEK as i64;
        }
    }

    fn count(&mut self, mark: Mark, minutes: u32) {
        self.at += minutes as i64;
        let drives = if mark == Mark::Drive { minutes } else { 0 };
        let works = if matches!(mark, Mark::Drive | Mark::Work) { minutes } else { 0 };
        self.period_drive += drives;
        self.day_drive += drives;
        self.week_drive += drives;
        self.work_since_pause += works;
        self.day_work += works;
        self.week_work += works;
    }

    /// Whether the rules hold at the minute that was counted last.
    fn keeps_rules(&self, mark: Mark) -> bool {
        let on_duty = self.at - self.day_from <= 900
            && self.reduced <= 3
            && self.at - self.weekly_end <= 8_640
            && (self.owed == 0 || self.at + 660 + self.owed <= self.due);
        let working = self.week_work <= 3_600
            && self.week_work + self.work_before <= 48_960
            && self.work_since_pause <= 360
            && (self.day_work <= 360 || self.day_paused >= 30)
            && (self.day_work <= 540 || self.day_paused >= 45);
        let driving = self.period_drive <= 270
            && self.day_drive <= if self.long_days < 2 { 600 } else { 540 }
            && self.week_drive <= 3_360
            && self.week_drive + self.prev_drive <= 5_400;
        on_duty && (working || mark == Mark::Ready) && (driving || mark != Mark::Drive)
    }

    /// Whether this driver, at the same minute and with no open run, is nowhere worse off: every count that a rule limits is no
    /// larger, every time from which a rule counts is no earlier, and what shortens a later break or rest is there too.
    pub fn is_no_worse(&self, other: &Walk) -> bool {
        self.has_first_part == other.has_first_part
            && self.day_from >= other.day_from
            && self.weekly_end >= other.weekly_end
            && (self.weekly_length >= 2_700 || other.weekly_length < 2_700)
            && self.reduced <= other.reduced
            && self.long_days <= other.long_days
            && self.day_drive <= other.day_drive
            && self.day_work <= other.day_work
            && self.day_paused.min(45) >= other.day_paused.min(45)
            && (self.has_long_pause || !other.has_long_pause)
            && self.period_drive <= other.period_drive
            && self.work_since_pause <= other.work_since_pause
            && self.week_drive <= other.week_drive
            && self.week_work <= other.week_work
            && self.owed <= other.owed
            && (self.owed == 0 || self.due >= other.due)
    }
}
