//! Duties: a list of steps, each a stay and then an act, judged by the office rules and by the hours rules.

use crate::rules;
use crate::weeks::{Driver, Kind, Mark, Stint, Week, WEEK};

#[derive(Clone, Copy, PartialEq, Eq, Debug)]
pub enum Act { Drive(usize), Serve(usize), Load }

#[derive(Clone, Copy, Debug)]
pub struct Step { pub ready: u32, pub off: u32, pub kind: Kind, pub act: Act }

/// What a lawful duty comes to: its cents, and each order that it serves with the minute at which the service starts.
pub struct Done { pub cents: u64, pub served: Vec<(usize, u32)> }

/// Where the steps so far leave the lorry.
struct Lorry { at: u64, place: usize, used: u64, loaded: bool, done: Done }

/// The stay's own rules: its length, no waiting where the history's off run is still open, and weekly rests at the depot alone.
fn stay_fault(step: &Step, place: usize, is_open: bool) -> Option<&'static str> {
    let rest = step.kind != Kind::Plain;
    if is_open && step.ready > 0 {
        return Some("a ready minute in the first stay, and the off run before Monday is open");
    }
    if !rest && ![0, 15, 30, 45, 180].contains(&step.off) {
        return Some("a plain stay is off for another time than 0, 15, 30, 45 or 180");
    }
    if rest && step.off == 0 && !is_open {
        return Some("a rest of no minute");
    }
    if step.kind == Kind::Weekly && place != 0 {
        return Some("a weekly rest away from the depot");
    }
    None
}

/// The minutes of the act, where the lorry may do it there.
fn minutes_of(week: &Week, lorry: &Lorry, act: Act) -> Result<(u64, u64), &'static str> {
    match act {
        Act::Drive(to) => week.leg(lorry.place, to).map(|leg| (leg.minutes as u64, leg.cents)).ok_or("no such road"),
        Act::Serve(order) if week.orders[order].place == lorry.place => Ok((week.orders[order].service as u64, 0)),
        Act::Serve(_) => Err("a service away from the order's place"),
        Act::Load if lorry.place == 0 => Ok((week.load as u64, 0)),
        Act::Load => Err("a load away from the depot"),
    }
}

/// The rules of a service that starts at a minute: window, load act, capacity, and each order once.
fn service_fault(week: &Week, driver: &Driver, lorry: &Lorry, order: usize, start: u64) -> Option<&'static str> {
    let asked = &week.orders[order];
    if start < asked.opens as u64 || start > asked.closes as u64 {
        return Some("a service outside its window");
    }
    if !lorry.loaded {
        return Some("a service before any load");
    }
    if lorry.used + asked.kg as u64 > driver.capacity as u64 {
        return Some("more served than the lorry carries");
    }
    lorry.done.served.iter().any(|(served, _)| *served == order).then_some("an order served twice")
}

fn take(week: &Week, driver: &Driver, lorry: &mut Lorry, step: &Step, is_first: bool) -> Result<(), &'static str> {
    if let Some(fault) = stay_fault(step, lorry.place, is_first && driver.past.open_off > 0) {
        return Err(fault);
    }
    let start = lorry.at + step.ready as u64 + step.off as u64;
    if step.kind != Kind::Plain && start % week.grid as u64 != 0 {
        return Err("the act after a rest starts off the grid");
    }
    let (minutes, cents) = minutes_of(week, lorry, step.act)?;
    if start + minutes > WEEK as u64 {
        return Err("an act past the week's end");
    }
    if step.kind == Kind::Daily && lorry.place != 0 {
        lorry.done.cents += week.night;
    }
    match step.act {
        Act::Drive(to) => lorry.place = to,
        Act::Load => (lorry.used, lorry.loaded) = (0, true),
        Act::Serve(order) => {
            if let Some(fault) = service_fault(week, driver, lorry, order, start) {
                return Err(fault);
            }
            lorry.used += week.orders[order].kg as u64;
            lorry.done.served.push((order, start as u32));
        }
    }
    lorry.at = start + minutes;
    lorry.done.cents += cents;
    Ok(())
}

fn stints_of(week: &Week, steps: &[Step]) -> Vec<Stint> {
    let mut place = 0;
    let mut stints = Vec::new();
    for step in steps {
        let (mark, minutes) = match step.act {
            Act::Drive(to) => {
                let minutes = week.leg(place, to).map_or(0, |leg| leg.minutes);
                place = to;
                (Mark::Drive, minutes)
            }
            Act::Serve(order) => (Mark::Work, week.orders[order].service),
            Act::Load => (Mark::Work, week.load),
        };
        stints.push(Stint { mark: Mark::Ready, kind: Kind::Plain, minutes: step.ready });
        if step.off > 0 || step.kind != Kind::Plain {
            stints.push(Stint { mark: Mark::Off, kind: step.kind, minutes: step.off });
        }
        stints.push(Stint { mark, kind: Kind::Plain, minutes });
    }
    stints
}

/// What a duty of a driver comes to, where it is lawful: office rules step by step, back at the depot, then the hours rules over
/// the whole line. The fee is paid once, where there is a step.
pub fn judge(week: &Week, driver: &Driver, steps: &[Step]) -> Result<Done, String> {
    let done = Done { cents: if steps.is_empty() { 0 } else { driver.fee }, served: Vec::new() };
    let mut lorry = Lorry { at: 0, place: 0, used: 0, loaded: false, done };
    for (number, step) in steps.iter().enumerate() {
        take(week, driver, &mut lorry, step, number == 0).map_err(|fault| format!("{}, step {number}: {fault}", driver.name))?;
    }
    if lorry.place != 0 {
        return Err(format!("{}: the duty does not end at the depot", driver.name));
    }
    match rules::fault(&driver.past, &stints_of(week, steps)) {
        Some((minute, rule)) => Err(format!("{} breaks H{rule} at minute {minute}", driver.name)),
        None => Ok(lorry.done),
    }
}
