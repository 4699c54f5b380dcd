//! The order on labels and the plain store in plain Rust: the same algorithm as crates/dominance, with no contract.
#[derive(Clone, Copy)]
pub struct Clock {
    pub at: u32, pub off: u32, pub day_from: i32, pub rest_from: i32, pub period: u32, pub drive_day: u32, pub long_days: u32,
    pub reduced: u32, pub prev_weekly: u32, pub work_run: u32, pub work_day: u32, pub pause_day: u32, pub drive_week: u32,
    pub work_week: u32, pub prev_drive: u32, pub work_before: u32, pub owed: u32, pub due: i32, pub half: bool, pub split: bool,
}

#[derive(Clone, Copy)]
pub struct Label {
    pub clock: Clock, pub place: u32, pub served: u128, pub used: u32, pub loaded: bool, pub fee_paid: bool, pub value: i64,
}

const REGULAR_WEEKLY: u32 = 2_700;

#[inline]
fn is_no_later_or_dearer(a: &Label, b: &Label) -> bool {
    (a.place == b.place) & (a.clock.at <= b.clock.at) & (a.clock.half == b.clock.half) & (a.value <= b.value)
}

#[inline]
fn serves_among(a: u128, b: u128, forced: u128) -> bool {
    (a & !b == 0) & ((a ^ b) & forced == 0)
}

#[inline]
fn has_as_much_room(a: &Label, b: &Label) -> bool {
    (a.used <= b.used) & (a.loaded | !b.loaded)
}

#[inline]
fn began_as_late(a: &Clock, b: &Clock) -> bool {
    (a.day_from >= b.day_from) & (a.rest_from >= b.rest_from)
}

#[inline]
fn did_as_little(a: &Clock, b: &Clock) -> bool {
    (a.period <= b.period)
        & (a.drive_day <= b.drive_day)
        & (a.work_run <= b.work_run)
        & (a.work_day <= b.work_day)
        & (a.drive_week <= b.drive_week)
        & (a.work_week <= b.work_week)
}

#[inline]
fn rested_as_well(a: &Clock, b: &Clock) -> bool {
    (a.pause_day >= b.pause_day)
        & (a.split | !b.split)
        & (a.long_days <= b.long_days)
        & (a.reduced <= b.reduced)
        & ((a.prev_weekly >= REGULAR_WEEKLY) | (b.prev_weekly < REGULAR_WEEKLY))
}

#[inline]
fn owes_no_more(a: &Clock, b: &Clock) -> bool {
    (a.owed <= b.owed) & ((a.owed == 0) | (a.due >= b.due))
}

#[inline]
pub fn better(a: &Label, b: &Label, forced: u128) -> bool {
    is_no_later_or_dearer(a, b)
        & serves_among(a.served, b.served, forced)
        & has_as_much_room(a, b)
        & began_as_late(&a.clock, &b.clock)
        & did_as_little(&a.clock, &b.clock)
        & rested_as_well(&a.clock, &b.clock)
        & owes_no_more(&a.clock, &b.clock)
}

fn next(seed: u32) -> u32 { seed.wrapping_mul(1664525).wrapping_add(1013904223) }

fn pick(seed: u32, place: u32, below: u32) -> u32 { (seed >> place) % below }

fn clock_of(at: u32, half: bool, a: u32, b: u32) -> Clock {
    Clock {
        at, off: 0, day_from: pick(a, 8, 4) as i32, rest_from: 0, period: 15 * pick(a, 12, 4), drive_day: 15 * pick(a, 16, 6),
        long_days: pick(a, 20, 2), reduced: pick(b, 8, 2), prev_weekly: 2_700, work_run: 15 * pick(b, 12, 4),
        work_day: 15 * pick(b, 16, 6), pause_day: 15 * pick(b, 20, 4), drive_week: 60 * pick(next(b), 8, 4),
        work_week: 60 * pick(next(b), 12, 6), prev_drive: 0, work_before: 0, owed: 0, due: 0, half, split: pick(next(b), 16, 4) == 0,
    }
}

fn label_of(seed: u32, alike: bool) -> Label {
    let a = next(seed);
    let b = next(a);
    let c = next(next(b));
    let at = if alike { 600 } else { 15 * pick(c, 8, 64) };
    Label {
        clock: clock_of(at, !alike && pick(c, 12, 4) == 0, a, b),
        place: 0,
        served: if alike { 3 } else { pick(c, 16, 16) as u128 },
        used: 100 * pick(next(b), 20, 4),
        loaded: true,
        fee_paid: true,
        value: if alike { 5_000 } else { 100 * pick(c, 20, 64) as i64 },
    }
}

struct Fronts { by_place: Vec<Vec<Label>>, forced: u128 }

impl Fronts {
    fn store(&mut self, label: Label) { self.by_place[label.place as usize].push(label) }

    #[inline(never)]
    fn bettered(&self, label: &Label) -> bool {
        let Some(list) = self.by_place.get(label.place as usize) else { return false };
        for stored in list {
            if stored.fee_paid && better(stored, label, self.forced) {
                return true;
            }
        }
        false
    }
}

fn stored(labels: u32, alike: bool) -> u32 {
    let mut fronts = Fronts { by_place: vec![vec![]], forced: 1 };
    let mut seed = 1;
    let mut found: u32 = 0;
    for _ in 0..labels {
        seed = next(next(next(next(next(seed)))));
        let label = label_of(seed, alike);
        if !fronts.bettered(&label) {
            fronts.store(label);
            found = found.wrapping_add(1);
        }
    }
    found
}

fn main() {
    let Some(word) = std::env::args().nth(1) else { return };
    let alike = word == "alike";
    let labels = if alike { 10_000 } else { 4_000 };
    println!("{}", stored(labels, alike));
}
