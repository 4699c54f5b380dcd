//! The hours rules, judged on a line of minutes: at each on-duty minute of the week every rule counts afresh over the whole
//! line, from its off runs and from how many Drive and working minutes lie between two places of it. Nothing is carried from
//! one minute to the next.

use crate::weeks::{Kind, Mark, Past, Stint, WEEK};

/// An off run that an on-duty minute has ended: its minutes are those from `from` up to, and without, `to`.
#[derive(Clone, Copy)]
struct Run { from: usize, to: usize, kind: Kind }

impl Run {
    fn length(&self) -> usize { self.to - self.from }

    fn is_rest(&self) -> bool { self.kind != Kind::Plain }
}

/// A history's minutes and a week's, with Off to the end of the week.
struct Line {
    marks: Vec<Mark>,
    runs: Vec<Run>,
    monday: usize,
    /// how many Drive minutes, and how many working ones, lie before each place
    drives: Vec<usize>,
    works: Vec<usize>,
}

/// Puts stints on the line. An off stint, also one of no minute, says what the run is that it lengthens.
fn append(line: &mut Line, declared: &mut Kind, stints: &[Stint]) {
    for stint in stints {
        if stint.mark == Mark::Off {
            *declared = stint.kind;
        }
        for _ in 0..stint.minutes {
            let place = line.marks.len();
            if stint.mark != Mark::Off {
                let off = line.marks.iter().rev().take_while(|mark| **mark == Mark::Off).count();
                if off > 0 {
                    line.runs.push(Run { from: place - off, to: place, kind: *declared });
                }
                *declared = Kind::Plain;
            }
            line.marks.push(stint.mark);
        }
    }
}

fn counts(marks: &[Mark], is_counted: impl Fn(Mark) -> bool) -> Vec<usize> {
    let mut sums = vec![0];
    for mark in marks {
        sums.push(sums[sums.len() - 1] + is_counted(*mark) as usize);
    }
    sums
}

fn line_of(past: &Past, week: &[Stint]) -> Line {
    let mut line = Line { marks: Vec::new(), runs: Vec::new(), monday: 0, drives: Vec::new(), works: Vec::new() };
    let mut declared = Kind::Plain;
    append(&mut line, &mut declared, &past.stints);
    append(&mut line, &mut declared, &[Stint { mark: Mark::Off, kind: Kind::Plain, minutes: past.open_off }]);
    line.monday = line.marks.len();
    append(&mut line, &mut declared, week);
    line.marks.resize(line.monday + WEEK as usize, Mark::Off);
    line.drives = counts(&line.marks, |mark| mark == Mark::Drive);
    line.works = counts(&line.marks, |mark| mark == Mark::Drive || mark == Mark::Work);
    line
}

impl Line {
    fn drive(&self, from: usize, to: usize) -> usize { self.drives[to] - self.drives[from] }

    fn work(&self, from: usize, to: usize) -> usize { self.works[to] - self.works[from] }

    /// The runs that ended at a place or before it.
    fn ended(&self, place: usize) -> &[Run] { &self.runs[..self.runs.partition_point(|run| run.to <= place)] }

    /// Where the work day of a place begins.
    fn day(&self, place: usize) -> usize { self.ended(place).iter().filter(|run| run.is_rest()).map(|run| run.to).next_back().unwrap_or(0) }

    fn last_weekly(&self, place: usize) -> usize {
        self.ended(place).iter().filter(|run| run.kind == Kind::Weekly).map(|run| run.to).next_back().unwrap_or(0)
    }

    /// Where the driving period of a place begins: after the last full break, which is a run of 45, or one of 30 with a run of 15
    /// between the full break before and it.
    fn period(&self, place: usize) -> usize {
        let mut begins = 0;
        let mut has_part = false;
        for run in self.ended(place) {
            if run.length() >= 45 || (run.length() >= 30 && has_part) {
                begins = run.to;
                has_part = false;
            } else if run.length() >= 15 {
                has_part = true;
            }
        }
        begins
    }

    /// A daily rest with no run of 180 before it in its work day, and either shorter than 660 or after more than 780 minutes.
    fn is_reduced(&self, rest: &Run) -> bool {
        let day = self.day(rest.from);
        let is_split = self.ended(rest.from).iter().any(|run| run.from >= day && run.length() >= 180);
        rest.kind == Kind::Daily && !is_split && (rest.length() < 660 || rest.from - day > 780)
    }

    /// A work day of more than 540 Drive minutes whose last minute before the rest is one of the week.
    fn is_long(&self, rest: &Run) -> bool {
        rest.is_rest() && self.drive(self.day(rest.from), rest.from) > 540 && rest.from > self.monday
    }

    /// The debt at a place, in minutes, and the week minute by which it is due, as the runs that ended before `runs` leave it.
    fn debt(&self, past: &Past, runs: &[Run]) -> (i64, i64) {
        let (mut owed, mut due) = (past.owed as i64, past.due_weeks as i64 * WEEK as i64);
        for run in runs {
            let length = run.length() as i64;
            let pays = match run.kind {
                Kind::Plain => false,
                Kind::Daily => length >= 660 + owed,
                Kind::Weekly => length >= 2_700 + owed,
            };
            if pays {
                (owed, due) = (0, 0);
            } else if run.kind == Kind::Weekly && length < 2_700 && owed == 0 {
                let last_minute = run.to as i64 - 1 - self.monday as i64;
                (owed, due) = (2_700 - length, (last_minute.div_euclid(WEEK as i64) + 4) * WEEK as i64);
            }
        }
        (owed, due)
    }

    /// Whether the rest that ends at this place is long enough.
    fn ends_long_enough(&self, past: &Past, place: usize) -> bool {
        let ended = self.ended(place);
        let Some((run, before)) = ended.split_last().filter(|(run, _)| run.to == place) else { return true };
        let previous = before.iter().filter(|run| run.kind == Kind::Weekly).map(|run| run.length()).next_back();
        let owes = self.debt(past, before).0 > 0;
        match run.kind {
            Kind::Plain => true,
            Kind::Daily => run.length() >= 540,
            Kind::Weekly if previous.unwrap_or(past.prev_weekly as usize) < 2_700 || owes => run.length() >= 2_700,
            Kind::Weekly => run.length() >= 1_440,
        }
    }

    fn duty_fault(&self, past: &Past, place: usize) -> Option<u32> {
        let weekly = self.last_weekly(place);
        let reduced = self.ended(place).iter().filter(|run| run.from >= weekly && self.is_reduced(run)).count();
        let minute = (place - self.monday) as i64;
        let (owed, due) = self.debt(past, self.ended(place));
        let holds = [
            (3, place - self.day(place) < 900),
            (4, reduced <= 3),
            (5, self.ends_long_enough(past, place)),
            (6, place - weekly < 8_640),
            (12, owed == 0 || minute + 1 + 660 + owed <= due),
        ];
        holds.iter().find(|(_, holds)| !holds).map(|(rule, _)| *rule)
    }

    fn drive_fault(&self, past: &Past, place: usize) -> Option<u32> {
        let long_days = self.ended(place).iter().filter(|run| self.is_long(run)).count();
        let week = self.drive(self.monday, place + 1);
        let holds = [
            (1, self.drive(self.period(place), place + 1) <= 270),
            (2, self.drive(self.day(place), place + 1) <= if long_days < 2 { 600 } else { 540 }),
            (7, week <= 3_360),
            (8, week + past.prev_drive as usize <= 5_400),
        ];
        holds.iter().find(|(_, holds)| !holds).map(|(rule, _)| *rule)
    }

    fn work_fault(&self, past: &Past, place: usize) -> Option<u32> {
        let day = self.day(place);
        let pauses = |from: usize| self.ended(place).iter().filter(move |run| run.from >= from && run.length() >= 15);
        let week = self.work(self.monday, place + 1);
        let before: usize = past.work16.iter().map(|minutes| *minutes as usize).sum();
        let since_pause = pauses(0).next_back().map_or(0, |run| run.to);
        let today = self.work(day, place + 1);
        let paused: usize = pauses(day).map(|run| run.length()).sum();
        let holds = [
            (9, week <= 3_600 && week + before <= 48_960),
            (10, self.work(since_pause, place + 1) <= 360),
            (11, (today < 361 || paused >= 30) && (today < 541 || paused >= 45)),
        ];
        holds.iter().find(|(_, holds)| !holds).map(|(rule, _)| *rule)
    }
}

/// The first minute of the week at which a rule fails, and the least rule there.
pub fn fault(past: &Past, week: &[Stint]) -> Option<(usize, u32)> {
    let line = line_of(past, week);
    (line.monday..line.marks.len()).find_map(|place| {
        let mark = line.marks[place];
        let on_duty = (mark != Mark::Off).then(|| line.duty_fault(past, place)).flatten();
        let working = matches!(mark, Mark::Drive | Mark::Work).then(|| line.work_fault(past, place)).flatten();
        let driving = (mark == Mark::Drive).then(|| line.drive_fault(past, place)).flatten();
        [on_duty, working, driving].into_iter().flatten().min().map(|rule| (place - line.monday, rule))
    })
}
