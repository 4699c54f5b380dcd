//! The report of a plan, judged line by line against the week text.
//!
//! The lines are, in this order: `week`, `cost`, `bound`, `state` and `nodes`; for each driver in the text's order
//! `driver <name> cost <cents>`, `past <name> <history>` and the duty's lines; for each order in the text's order who serves it
//! from when, or what a subcontractor takes; and, of a desk that keeps drafts, `draft <revision>`.
//!
//! A history is seven words: the last weekly rest's minutes, last week's Drive minutes, sixteen weeks' working minutes with commas
//! between them, the open off minutes, the stints with commas between them (a letter and its minutes: D drive, W work, R ready,
//! P off, N a daily rest; `-` for none), the minutes owed, and in how many weeks they are due.
//!
//! A duty's line begins with the stamp of its first minute: `ready <minutes>`, `off <minutes> <kind>`, and the act, which ends
//! the step: `drive <place> <minutes>`, `serve <order> <minutes>` or `load <minutes>`. Each line begins where the one before
//! ended, the first at Monday 00:00.

use crate::duties::{judge, Act, Done, Step};
use crate::weeks::{minute_of, Driver, Kind, Mark, Past, Stint, Week, WEEK};

type Lines<'a> = std::iter::Peekable<std::str::Lines<'a>>;

fn next<'a>(lines: &mut Lines<'a>, word: &str) -> Result<&'a str, String> {
    let line = lines.next().ok_or(format!("the report ends before its line {word}"))?;
    line.strip_prefix(word).and_then(|rest| rest.strip_prefix(' ')).ok_or(format!("no line {word}, but: {line}"))
}

/// A plain decimal number: digits alone, without leading zeros.
fn number(text: &str) -> Result<u64, String> {
    let is_plain = text.bytes().all(|byte| byte.is_ascii_digit()) && (text == "0" || !text.starts_with('0'));
    text.parse().ok().filter(|_| is_plain).ok_or(format!("no plain number: {text}"))
}

fn stint_of(text: &str) -> Result<Stint, String> {
    let (mark, kind) = match text.chars().next() {
        Some('D') => (Mark::Drive, Kind::Plain),
        Some('W') => (Mark::Work, Kind::Plain),
        Some('R') => (Mark::Ready, Kind::Plain),
        Some('P') => (Mark::Off, Kind::Plain),
        Some('N') => (Mark::Off, Kind::Daily),
        _ => return Err(format!("no stint: {text}")),
    };
    Ok(Stint { mark, kind, minutes: number(&text[1..])? as u32 })
}

fn past_of(text: &str) -> Result<Past, String> {
    let words: Vec<&str> = text.split(' ').collect();
    let [weekly, drive, weeks, open, stints, owed, due] = words.as_slice() else { return Err(format!("no history: {text}")) };
    let work16: Vec<u32> = weeks.split(',').map(|part| number(part).map(|minutes| minutes as u32)).collect::<Result<_, _>>()?;
    let stints: Vec<Stint> = match *stints {
        "-" => Vec::new(),
        text => text.split(',').map(stint_of).collect::<Result<_, _>>()?,
    };
    Ok(Past {
        prev_weekly: number(weekly)? as u32,
        prev_drive: number(drive)? as u32,
        work16,
        open_off: number(open)? as u32,
        stints,
        owed: number(owed)? as u32,
        due_weeks: number(due)? as u32,
    })
}

/// The history text of a past, to compare what the rows say with what is printed.
fn text_of(past: &Past) -> String {
    let letter = |stint: &Stint| match (stint.mark, stint.kind) {
        (Mark::Drive, _) => 'D',
        (Mark::Work, _) => 'W',
        (Mark::Ready, _) => 'R',
        (Mark::Off, Kind::Daily) => 'N',
        (Mark::Off, _) => 'P',
    };
    let weeks: Vec<String> = past.work16.iter().map(u32::to_string).collect();
    let stints: Vec<String> = past.stints.iter().map(|stint| format!("{}{}", letter(stint), stint.minutes)).collect();
    let stints = if stints.is_empty() { "-".to_string() } else { stints.join(",") };
    let (weekly, drive, open) = (past.prev_weekly, past.prev_drive, past.open_off);
    format!("{weekly} {drive} {} {open} {stints} {} {}", weeks.join(","), past.owed, past.due_weeks)
}

fn named(names: impl Iterator<Item = String>, name: &str) -> Result<usize, String> {
    names.enumerate().find(|(_, known)| known == name).map(|(number, _)| number).ok_or(format!("no {name} in the week"))
}

/// A duty as its lines say it, so far.
struct Reader { at: i64, stay: Step, is_stay: bool, place: usize, steps: Vec<Step> }

const NO_STAY: Step = Step { ready: 0, off: 0, kind: Kind::Plain, act: Act::Load };

impl Reader {
    fn act(&mut self, act: Act, minutes: u64, known: Option<u32>) -> Result<(), String> {
        if known.map(u64::from) != Some(minutes) {
            return Err("an act of other minutes than the week says".to_string());
        }
        self.steps.push(Step { act, ..self.stay });
        (self.stay, self.is_stay) = (NO_STAY, false);
        Ok(())
    }

    /// The line without its stamp, as words; gives its minutes.
    fn line(&mut self, week: &Week, words: &[&str]) -> Result<u64, String> {
        match words {
            ["ready", minutes] if !self.is_stay && number(minutes)? > 0 => {
                self.stay.ready = number(minutes)? as u32;
                self.is_stay = true;
                number(minutes)
            }
            ["off", minutes, kind] if self.stay.off == 0 && self.stay.kind == Kind::Plain => {
                self.stay.off = number(minutes)? as u32;
                self.stay.kind = match *kind {
                    "plain" if self.stay.off > 0 => Kind::Plain,
                    "daily" => Kind::Daily,
                    "weekly" => Kind::Weekly,
                    _ => return Err(format!("no kind of an off run: {kind}")),
                };
                self.is_stay = true;
                number(minutes)
            }
            ["drive", place, minutes] => {
                let to = named(week.places.iter().cloned(), place)?;
                let known = week.leg(self.place, to).map(|leg| leg.minutes);
                self.place = to;
                self.act(Act::Drive(to), number(minutes)?, known)?;
                number(minutes)
            }
            ["serve", order, minutes] => {
                let order = named(week.orders.iter().map(|order| order.name.clone()), order)?;
                self.act(Act::Serve(order), number(minutes)?, Some(week.orders[order].service))?;
                number(minutes)
            }
            ["load", minutes] => {
                self.act(Act::Load, number(minutes)?, Some(week.load))?;
                number(minutes)
            }
            _ => Err(format!("no line of a duty: {}", words.join(" "))),
        }
    }
}

/// The steps of the lines that begin with a stamp.
fn steps_of(week: &Week, lines: &mut Lines) -> Result<Vec<Step>, String> {
    let mut reader = Reader { at: 0, stay: NO_STAY, is_stay: false, place: 0, steps: Vec::new() };
    while let Some(line) = lines.next_if(|line| line.starts_with(|first: char| first.is_ascii_digit())) {
        let words: Vec<&str> = line.split(' ').collect();
        if minute_of(week.first_day, words[0]) != Some(reader.at) {
            return Err(format!("another stamp than minute {}: {line}", reader.at));
        }
        reader.at += reader.line(week, &words[1..]).map_err(|fault| format!("{line}: {fault}"))? as i64;
    }
    if reader.is_stay {
        return Err("a stay without an act".to_string());
    }
    if reader.at > WEEK as i64 {
        return Err("a duty past the week's end".to_string());
    }
    Ok(reader.steps)
}

/// One driver's lines: the history is that of the rows, the duty is lawful after the printed one, and costs what is printed.
fn driver_done(week: &Week, driver: &Driver, lines: &mut Lines) -> Result<Done, String> {
    let printed = next(lines, &format!("driver {} cost", driver.name)).and_then(number)?;
    let text = next(lines, &format!("past {}", driver.name))?;
    if text != text_of(&driver.past) {
        return Err(format!("{}'s history is {}, and {text} is printed", driver.name, text_of(&driver.past)));
    }
    let judged = Driver { name: driver.name.clone(), capacity: driver.capacity, fee: driver.fee, past: past_of(text)? };
    let done = judge(week, &judged, &steps_of(week, lines)?)?;
    if done.cents != printed {
        return Err(format!("{}'s duty costs {}, and {printed} is printed", driver.name, done.cents));
    }
    Ok(done)
}

/// The cents of an order's line, which must say what the duties say: served once, then and by that driver, or by nobody and out.
fn order_cents(week: &Week, order: usize, duties: &[Done], line: &str) -> Result<u64, String> {
    let asked = &week.orders[order];
    let mut carriers = Vec::new();
    for (driver, duty) in week.drivers.iter().zip(duties) {
        carriers.extend(duty.served.iter().filter(|(served, _)| *served == order).map(|(_, start)| (&driver.name, *start)));
    }
    let words: Vec<&str> = line.split(' ').collect();
    match (words.as_slice(), carriers.as_slice()) {
        (["out", price], []) if number(price)? == asked.price => Ok(asked.price),
        (["by", driver, stamp], [(name, start)]) if driver == name => {
            let is_then = minute_of(week.first_day, stamp) == Some(*start as i64);
            if is_then { Ok(0) } else { Err(format!("{}: served at minute {start}", asked.name)) }
        }
        (_, carriers) => Err(format!("order {} {line}, and the duties serve it {} times", asked.name, carriers.len())),
    }
}

fn totals(cost: u64, bound: u64, state: &str, sum: u64) -> Result<(), String> {
    if sum != cost {
        return Err(format!("cost {cost} is printed, and the parts make {sum}"));
    }
    if bound > cost {
        return Err(format!("bound {bound} is above cost {cost}"));
    }
    match state {
        "proved" if bound != cost => Err(format!("proved, with bound {bound} and cost {cost}")),
        "proved" | "labels" | "nodes" => Ok(()),
        _ => Err(format!("no state: {state}")),
    }
}

/// Judges a report of a week. The fault is the first that is met, in the order of the lines; sums come last.
pub fn check(week: &Week, report: &str) -> Result<(), String> {
    if !report.ends_with('\n') {
        return Err("the last line has no end".to_string());
    }
    let mut lines = report.lines().peekable();
    if next(&mut lines, "week")? != week.monday {
        return Err("another week".to_string());
    }
    let cost = next(&mut lines, "cost").and_then(number)?;
    let bound = next(&mut lines, "bound").and_then(number)?;
    let state = next(&mut lines, "state")?;
    if next(&mut lines, "nodes").and_then(number)? == 0 {
        return Err("a tree of no node".to_string());
    }
    let mut duties = Vec::new();
    for driver in &week.drivers {
        duties.push(driver_done(week, driver, &mut lines)?);
    }
    let mut sum = duties.iter().map(|duty| duty.cents).sum();
    for order in 0..week.orders.len() {
        let line = next(&mut lines, &format!("order {}", week.orders[order].name))?;
        sum += order_cents(week, order, &duties, line)?;
    }
    if lines.next_if(|line| line.starts_with("draft ")).is_some_and(|line| number(&line[6..]).is_err()) {
        return Err("no revision of a draft".to_string());
    }
    match lines.next() {
        Some(line) => Err(format!("a line too many: {line}")),
        None => totals(cost, bound, state, sum),
    }
}
