//! `child` in plain Rust: the same tests in the same order as crates/duty_plan and crates/duty_label, with no contract.
#[path = "../hours/plain_hours.rs"]
mod plain_hours;
use plain_hours::*;

#[derive(Clone, Copy)]
struct Leg { from: u32, to: u32, minutes: u32, cents: u64 }
struct Driver { name: Vec<u8>, capacity: u32, fee: u64 }
struct Order { name: Vec<u8>, place: u32, opens: u32, closes: u32, service: u32, kg: u32, price: u64 }
struct Week { load: u32, night: u64, grid: u32, legs: Vec<Leg>, drivers: Vec<Driver>, orders: Vec<Order> }
struct Case { week: Week, past: Vec<History> }
#[derive(Clone, Copy, PartialEq)]
enum Pair { Free, Forced, Barred }
struct Pairs { orders: u32, cells: Vec<Pair> }
struct Prices { cents: Vec<u64> }
#[derive(Clone, Copy)]
enum Act { Leg(u32), Serve(u32), Load }
#[derive(Clone, Copy)]
enum DutyFault { Road(u32), Stay(u32), Away(u32), Grid(u32), Late(u32), Window(u32), Load(u32), Twice(u32), NotHome, Rule(Broken) }
#[derive(Clone, Copy)]
enum NoChild { Barred, Fault(DutyFault) }
#[derive(Clone, Copy)]
struct Label { clock: Clock, place: u32, served: u128, used: u32, loaded: bool, fee_paid: bool, value: i64 }

impl Act {
    fn mark(self) -> Mark {
        match self {
            Act::Leg(_) => Mark::Drive,
            Act::Serve(_) | Act::Load => Mark::Work,
        }
    }
}

impl Week {
    fn leg(&self, from: u32, to: u32) -> Option<&Leg> {
        self.legs.iter().find(|leg| leg.from == from && leg.to == to)
    }

    fn deed(&self, place: u32, act: Act) -> Option<(u32, u64)> {
        match act {
            Act::Leg(to) => self.leg(place, to).map(|leg| (leg.minutes, leg.cents)),
            Act::Serve(order) => match self.orders.get(order as usize) {
                Some(order) if order.place == place => Some((order.service, 0)),
                _ => None,
            },
            Act::Load if place == 0 => Some((self.load, 0)),
            Act::Load => None,
        }
    }

    fn used_after(&self, act: Act, used: u32) -> u32 {
        match act {
            Act::Leg(_) => used,
            Act::Serve(order) => self.orders.get(order as usize).map_or(used, |order| order.kg + used),
            Act::Load => 0,
        }
    }

    fn in_window(&self, act: Act, start: u64) -> bool {
        match act {
            Act::Serve(order) => self.orders.get(order as usize)
                .is_some_and(|order| u64::from(order.opens) <= start && start <= u64::from(order.closes)),
            Act::Leg(_) | Act::Load => true,
        }
    }
}

fn is_plain(off: u32) -> bool { matches!(off, 0 | 15 | 30 | 45 | 180) }

fn lengths(after_open: bool, stay: &Stay) -> bool {
    if after_open {
        return stay.ready == 0 && (stay.kind != Kind::Plain || is_plain(stay.off));
    }
    match stay.kind {
        Kind::Plain => is_plain(stay.off),
        Kind::Daily | Kind::Weekly => stay.off >= 1,
    }
}

fn fault(week: &Week, lorry: &Driver, open_off: u32, label: &Label, stay: &Stay, act: Act, start: u64, end: u64) -> Option<DutyFault> {
    if !lengths(!label.fee_paid && open_off > 0, stay) {
        return Some(DutyFault::Stay(0));
    }
    if stay.kind == Kind::Weekly && label.place != 0 {
        return Some(DutyFault::Away(0));
    }
    if stay.kind != Kind::Plain && start % u64::from(week.grid) != 0 {
        return Some(DutyFault::Grid(0));
    }
    if end > 10_080 {
        return Some(DutyFault::Late(0));
    }
    if !week.in_window(act, start) {
        return Some(DutyFault::Window(0));
    }
    if let Act::Serve(order) = act {
        if !(label.loaded && week.used_after(act, label.used) <= lorry.capacity) {
            return Some(DutyFault::Load(0));
        }
        if label.served >> order & 1 != 0 {
            return Some(DutyFault::Twice(0));
        }
    }
    None
}

fn is_barred(pairs: &Pairs, driver: u32, act: Act) -> bool {
    match act {
        Act::Serve(order) if order < pairs.orders => {
            pairs.cells.get((driver * pairs.orders + order) as usize) == Some(&Pair::Barred)
        }
        _ => false,
    }
}

fn child(case: &Case, driver: u32, pairs: &Pairs, prices: &Prices, label: &Label, stay: Stay, act: Act) -> Result<Label, NoChild> {
    if is_barred(pairs, driver, act) {
        return Err(NoChild::Barred);
    }
    let week = &case.week;
    let lorry = &week.drivers[driver as usize];
    let Some((minutes, cents)) = week.deed(label.place, act) else {
        return Err(NoChild::Fault(DutyFault::Road(0)));
    };
    let start = u64::from(label.clock.at) + u64::from(stay.ready) + u64::from(stay.off);
    let end = start + u64::from(minutes);
    if let Some(fault) = fault(week, lorry, case.past[driver as usize].open_off, label, &stay, act, start, end) {
        return Err(NoChild::Fault(fault));
    }
    let clock = go(&label.clock, stay, act.mark(), minutes).map_err(|broken| NoChild::Fault(DutyFault::Rule(broken)))?;
    let fee = if label.fee_paid { 0 } else { lorry.fee };
    let night = if stay.kind == Kind::Daily && label.place != 0 { week.night } else { 0 };
    let (place, served, loaded, price) = match act {
        Act::Leg(to) => (to, label.served, label.loaded, 0),
        Act::Serve(order) => (label.place, label.served | 1 << order, label.loaded, prices.cents.get(order as usize).copied().unwrap_or(0)),
        Act::Load => (label.place, label.served, true, 0),
    };
    Ok(Label {
        clock,
        place,
        served,
        used: week.used_after(act, label.used),
        loaded,
        fee_paid: true,
        value: label.value + (fee + night + cents) as i64 - price as i64,
    })
}

fn act_of(place: u32, pick: u32) -> Act {
    match (place, pick % 4) {
        (0, 0) => Act::Load,
        (0, _) => Act::Leg(1 + pick / 4 % 13),
        (_, 0) => Act::Leg(0),
        _ => Act::Serve(place.wrapping_sub(1).wrapping_add(13 * (pick / 4 % 2))),
    }
}

fn said(label: &Label) -> u32 {
    let value = (label.value.unsigned_abs() % 65_536) as u32;
    label.clock.at.wrapping_add(value).wrapping_add((label.served % 65_536) as u32)
}

fn call(case: &Case, pairs: &Pairs, prices: &Prices, label: &Label, first: &Label, seed: u32) -> (Label, u32) {
    let stay = stay_of((seed >> 16) % 16);
    let act = act_of(label.place, seed >> 24);
    match child(case, 0, pairs, prices, label, stay, act) {
        Ok(next) => (next, said(&next)),
        Err(NoChild::Barred) => (*label, 3),
        Err(NoChild::Fault(DutyFault::Rule(broken))) => (*first, broken.minute ^ broken.rule as u32),
        Err(NoChild::Fault(DutyFault::Late(_))) => (*first, 5),
        Err(NoChild::Fault(_)) => (*label, 7),
    }
}

fn name(letter: u8, number: u32) -> Vec<u8> { vec![letter, b'0' + (number / 10 % 10) as u8, b'0' + (number % 10) as u8] }

fn leg(from: u32, to: u32) -> Leg {
    Leg { from, to, minutes: 30 + from + 3 * to, cents: 1000 + 10 * u64::from(from) + 7 * u64::from(to) }
}

fn main() {
    let legs = (1..14).flat_map(|place| [leg(0, place), leg(place, 0)]).collect();
    let drivers = vec![Driver { name: name(b'D', 0), capacity: 24_000, fee: 20_000 }];
    let orders: Vec<Order> = (0..24).map(|order| Order {
        name: name(b'A', order), place: 1 + order % 13, opens: 180 * order, closes: 180 * order + 2880, service: 30, kg: 4000, price: 20_000,
    }).collect();
    let history = History { prev_weekly: 2700, stints: vec![], open_off: 2700, prev_drive: 0, work16: [0; 16], owed: 0, due: 0 };
    let first = Label { clock: start(&history), place: 0, served: 0, used: 0, loaded: false, fee_paid: false, value: 0 };
    let pairs = Pairs { orders: 24, cells: (0..24).map(|order| if order % 13 == 5 { Pair::Barred } else { Pair::Free }).collect() };
    let prices = Prices { cents: vec![0; 24] };
    let case = Case { week: Week { load: 30, night: 4000, grid: 15, legs, drivers, orders }, past: vec![history] };
    let mut label = first;
    let mut seed = 1;
    let mut sum: u32 = 0;
    for _ in 0..1_000_000 {
        seed = next(seed);
        let (after, adds) = call(&case, &pairs, &prices, &label, &first, seed);
        label = after;
        sum = sum.wrapping_mul(31).wrapping_add(adds);
    }
    println!("{sum}");
}
