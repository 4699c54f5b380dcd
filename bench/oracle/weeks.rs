//! The week text, read by plain splitting at commas: these texts have no quotes. Minutes count from the week's Monday 00:00,
//! money is in cents, loads are in kg.

pub const WEEK: u32 = 10_080;

#[derive(Clone, Copy, PartialEq, Eq, Debug)]
pub enum Mark { Drive, Work, Ready, Off }

#[derive(Clone, Copy, PartialEq, Eq, Debug)]
pub enum Kind { Plain, Daily, Weekly }

#[derive(Clone, Copy, Debug)]
pub struct Stint { pub mark: Mark, pub kind: Kind, pub minutes: u32 }

/// What stands before Monday: the minutes since the end of the last weekly rest, and what is counted from before it.
#[derive(Clone, Debug)]
pub struct Past {
    pub prev_weekly: u32,
    pub prev_drive: u32,
    pub work16: Vec<u32>,
    pub open_off: u32,
    pub stints: Vec<Stint>,
    pub owed: u32,
    pub due_weeks: u32,
}

pub struct Leg { pub from: usize, pub to: usize, pub minutes: u32, pub cents: u64 }

pub struct Driver { pub name: String, pub capacity: u32, pub fee: u64, pub past: Past }

pub struct Order {
    pub name: String,
    pub place: usize,
    pub opens: u32,
    pub closes: u32,
    pub service: u32,
    pub kg: u32,
    pub price: u64,
}

pub struct Week {
    pub monday: String,
    pub first_day: i64,
    pub load: u32,
    pub night: u64,
    pub grid: u32,
    pub places: Vec<String>,
    pub legs: Vec<Leg>,
    pub drivers: Vec<Driver>,
    pub orders: Vec<Order>,
}

impl Week {
    pub fn leg(&self, from: usize, to: usize) -> Option<&Leg> { self.legs.iter().find(|leg| leg.from == from && leg.to == to) }
}

/// The days from 1970-01-01 to a date, counted year by year and month by month.
fn day_number(year: i64, month: i64, day: i64) -> Option<i64> {
    let is_leap = |year: i64| year % 4 == 0 && (year % 100 != 0 || year % 400 == 0);
    let length = |month: i64| match month {
        2 => 28 + is_leap(year) as i64,
        4 | 6 | 9 | 11 => 30,
        _ => 31,
    };
    if !(1970..2200).contains(&year) || !(1..=12).contains(&month) || !(1..=length(month)).contains(&day) {
        return None;
    }
    let years: i64 = (1970..year).map(|year| 365 + is_leap(year) as i64).sum();
    let months: i64 = (1..month).map(length).sum();
    Some(years + months + day - 1)
}

fn day_of(text: &str) -> Option<i64> {
    let parts: Vec<&str> = text.split('-').collect();
    let [year, month, day] = parts.as_slice() else { return None };
    if (year.len(), month.len(), day.len()) != (4, 2, 2) {
        return None;
    }
    day_number(year.parse().ok()?, month.parse().ok()?, day.parse().ok()?)
}

/// The minute of a stamp `YYYY-MM-DDTHH:MM`, from 00:00 of the first day.
pub fn minute_of(first_day: i64, stamp: &str) -> Option<i64> {
    let (date, time) = stamp.split_once('T')?;
    let (hour, minute) = time.split_once(':')?;
    if (hour.len(), minute.len()) != (2, 2) {
        return None;
    }
    let (hour, minute): (i64, i64) = (hour.parse().ok()?, minute.parse().ok()?);
    (hour < 24 && minute < 60).then_some((day_of(date)? - first_day) * 1440 + hour * 60 + minute)
}

type Rows<'a> = Vec<Vec<&'a str>>;

fn rows_with<'a, 'b>(rows: &'b Rows<'a>, word: &'b str) -> impl Iterator<Item = &'b Vec<&'a str>> {
    rows.iter().filter(move |row| row[0] == word)
}

fn number(row: &[&str], field: usize) -> Result<u64, String> {
    row.get(field).and_then(|text| text.parse().ok()).ok_or(format!("no number in field {} of {}", field + 1, row.join(",")))
}

fn number_of(names: &[String], name: &str) -> Result<usize, String> {
    names.iter().position(|known| known == name).ok_or(format!("no {name} in the week"))
}

fn mark_of(word: &str) -> Result<(Mark, Kind), String> {
    Ok(match word {
        "DRIVE" => (Mark::Drive, Kind::Plain),
        "WORK" => (Mark::Work, Kind::Plain),
        "READY" => (Mark::Ready, Kind::Plain),
        "OFF" => (Mark::Off, Kind::Plain),
        "DAILY" => (Mark::Off, Kind::Daily),
        "WEEKLY" => (Mark::Off, Kind::Weekly),
        _ => return Err(format!("no mark: {word}")),
    })
}

/// A driver's past rows as stints: neighbours of one on-duty mark are one, and an off row at the end is the open run.
fn stints_of(rows: &Rows, driver: &str) -> Result<(Vec<Stint>, u32), String> {
    let mut stints: Vec<Stint> = Vec::new();
    for row in rows_with(rows, "past").filter(|row| row[1] == driver) {
        let (mark, kind) = mark_of(row[2])?;
        let minutes = number(row, 3)? as u32;
        match stints.last_mut() {
            Some(last) if last.mark == mark && mark != Mark::Off => last.minutes += minutes,
            _ => stints.push(Stint { mark, kind, minutes }),
        }
    }
    let is_open = stints.last().is_some_and(|last| last.mark == Mark::Off);
    let open = if is_open { stints.pop().map_or(0, |last| last.minutes) } else { 0 };
    Ok((stints, open.min(20_160)))
}

/// The history that a driver's rows state. A weekly rest below 2,700 minutes left a debt, due three weeks after its own week.
fn past_of(rows: &Rows, driver: &str, first_day: i64) -> Result<Past, String> {
    let rest = rows_with(rows, "rest").find(|row| row[1] == driver).ok_or(format!("no rest row of {driver}"))?;
    let worked = rows_with(rows, "worked").find(|row| row[1] == driver).ok_or(format!("no worked row of {driver}"))?;
    let end = minute_of(first_day, rest[2]).ok_or("a rest's end is no stamp")?;
    let prev_weekly = number(rest, 3)? as u32;
    let weeks_before = -(end - 1).div_euclid(WEEK as i64);
    let owed = 2_700_u32.saturating_sub(prev_weekly);
    let (stints, open_off) = stints_of(rows, driver)?;
    let mut work16 = Vec::new();
    for field in 3..19 {
        work16.push(number(worked, field)? as u32);
    }
    let due_weeks = if owed == 0 { 0 } else { (4 - weeks_before).max(0) as u32 };
    Ok(Past { prev_weekly, prev_drive: number(worked, 2)? as u32, work16, open_off, stints, owed, due_weeks })
}

fn orders_of(rows: &Rows, places: &[String], first_day: i64) -> Result<Vec<Order>, String> {
    let mut orders = Vec::new();
    for row in rows_with(rows, "order") {
        let minute = |field: usize| minute_of(first_day, row[field]).map(|minute| minute as u32).ok_or("a window is no stamp");
        orders.push(Order {
            name: row[1].to_string(),
            place: number_of(places, row[2])?,
            opens: minute(3)?,
            closes: minute(4)?,
            service: number(row, 5)? as u32,
            kg: number(row, 6)? as u32,
            price: number(row, 7)?,
        });
    }
    Ok(orders)
}

fn rows_of(text: &str) -> Result<(Rows<'_>, i64), String> {
    let rows: Rows = text.lines().filter(|line| !line.is_empty()).map(|line| line.split(',').collect()).collect();
    let first = rows.first().filter(|row| row[0] == "week").ok_or("the first row is no week row")?;
    let first_day = day_of(first[1]).ok_or("no Monday")?;
    Ok((rows, first_day))
}

/// The drivers of a check text in the order of their first `did` row, each with the history and the line. A driver without
/// history rows was at rest for 2,700 minutes.
pub fn read_driven(text: &str) -> Result<Vec<(String, Past, Vec<Stint>)>, String> {
    let (rows, first_day) = rows_of(text)?;
    let mut driven: Vec<(String, Past, Vec<Stint>)> = Vec::new();
    for row in rows_with(&rows, "did") {
        let (mark, kind) = mark_of(row[2])?;
        let stint = Stint { mark, kind, minutes: number(row, 3)? as u32 };
        match driven.iter_mut().find(|(name, _, _)| name == row[1]) {
            Some((_, _, line)) => line.push(stint),
            None => {
                let is_known = ["rest", "worked", "past"].iter().any(|word| rows_with(&rows, word).any(|past| past[1] == row[1]));
                let fresh = Past {
                    prev_weekly: 2_700, prev_drive: 0, work16: vec![0; 16], open_off: 2_700, stints: Vec::new(), owed: 0, due_weeks: 0,
                };
                let past = if is_known { past_of(&rows, row[1], first_day)? } else { fresh };
                driven.push((row[1].to_string(), past, vec![stint]));
            }
        }
    }
    Ok(driven)
}

pub fn read_week(text: &str) -> Result<Week, String> {
    let (rows, first_day) = rows_of(text)?;
    let first = &rows[0];
    let places: Vec<String> = rows_with(&rows, "place").map(|row| row[1].to_string()).collect();
    let mut legs = Vec::new();
    for row in rows_with(&rows, "leg") {
        let (from, to) = (number_of(&places, row[1])?, number_of(&places, row[2])?);
        legs.push(Leg { from, to, minutes: number(row, 3)? as u32, cents: number(row, 4)? });
    }
    let mut drivers = Vec::new();
    for row in rows_with(&rows, "driver") {
        let past = past_of(&rows, row[1], first_day)?;
        drivers.push(Driver { name: row[1].to_string(), capacity: number(row, 2)? as u32, fee: number(row, 3)?, past });
    }
    let orders = orders_of(&rows, &places, first_day)?;
    let (load, night, grid) = (number(first, 2)? as u32, number(first, 3)?, number(first, 4)? as u32);
    Ok(Week { monday: first[1].to_string(), first_day, load, night, grid, places, legs, drivers, orders })
}
