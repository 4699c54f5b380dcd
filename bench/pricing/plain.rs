//! The least duty of a week's first driver in plain Rust: the same outlook, the same beams and the same exact run as
//! crates/duty_outlook, crates/duty_beam and crates/duty_pricing, with no contract.
#[path = "../hours/plain_hours.rs"]
mod plain_hours;
use plain_hours::*;
use std::io::Read;

const WEEK_MINUTES: u32 = 10_080;
const LENGTHS: [u32; 5] = [0, 15, 30, 45, 180];

// The week, and a step more of a label, as crates/duty_plan and crates/duty_label have them.

struct Leg { from: u32, to: u32, minutes: u32, cents: u64 }
struct Driver { capacity: u32, fee: u64 }
struct Order { place: u32, opens: u32, closes: u32, service: u32, kg: u32, price: u64 }
#[derive(Default)]
struct Week { load: u32, night: u64, grid: u32, places: u32, legs: Vec<Leg>, drivers: Vec<Driver>, orders: Vec<Order> }
struct Case { week: Week, past: Vec<History> }
#[derive(Clone, Copy, PartialEq)]
enum Pair { Free, Forced, Barred }
#[derive(Clone, Copy, PartialEq)]
enum Act { Leg(u32), Serve(u32), Load }
#[derive(Clone, Copy)]
struct Step { stay: Stay, act: Act }
#[derive(Clone, Copy)]
struct Label { clock: Clock, place: u32, served: u128, used: u32, loaded: bool, fee_paid: bool, value: i64 }

/// A driver of a case, what is decided of the driver's orders, and prices.
struct Asked<'a> { case: &'a Case, driver: usize, pairs: &'a [Pair], prices: &'a [u64], forced: u128, barred: u128 }

impl Act {
    fn mark(self) -> Mark { if let Act::Leg(_) = self { Mark::Drive } else { Mark::Work } }
}

impl Week {
    fn deed(&self, place: u32, act: Act) -> Option<(u32, u64)> {
        match act {
            Act::Leg(to) => self.legs.iter().find(|leg| leg.from == place && leg.to == to).map(|leg| (leg.minutes, leg.cents)),
            Act::Serve(order) => self.orders.get(order as usize).filter(|order| order.place == place).map(|order| (order.service, 0)),
            Act::Load => (place == 0).then_some((self.load, 0)),
        }
    }

    fn used_after(&self, act: Act, used: u32) -> u32 {
        match act {
            Act::Leg(_) => used,
            Act::Serve(order) => self.orders[order as usize].kg + used,
            Act::Load => 0,
        }
    }

    fn in_window(&self, act: Act, start: u64) -> bool {
        let Act::Serve(order) = act else { return true };
        let order = &self.orders[order as usize];
        u64::from(order.opens) <= start && start <= u64::from(order.closes)
    }
}

fn has_lengths(after_open: bool, stay: &Stay) -> bool {
    let is_plain = LENGTHS.contains(&stay.off);
    if after_open {
        return stay.ready == 0 && (stay.kind != Kind::Plain || is_plain);
    }
    if stay.kind == Kind::Plain { is_plain } else { stay.off >= 1 }
}

impl Asked<'_> {
    fn first(&self) -> Label {
        let clock = start(&self.case.past[self.driver]);
        Label { clock, place: 0, served: 0, used: 0, loaded: false, fee_paid: false, value: 0 }
    }

    fn keeps_office(&self, label: &Label, stay: &Stay, act: Act, start: u64, end: u64) -> bool {
        let week = &self.case.week;
        if !has_lengths(!label.fee_paid && self.case.past[self.driver].open_off > 0, stay) {
            return false;
        }
        if stay.kind == Kind::Weekly && label.place != 0 {
            return false;
        }
        if stay.kind != Kind::Plain && start % u64::from(week.grid) != 0 {
            return false;
        }
        if end > u64::from(WEEK_MINUTES) || !week.in_window(act, start) {
            return false;
        }
        let Act::Serve(order) = act else { return true };
        label.loaded && week.used_after(act, label.used) <= week.drivers[self.driver].capacity && label.served >> order & 1 == 0
    }

    fn child(&self, label: &Label, stay: Stay, act: Act) -> Option<Label> {
        let week = &self.case.week;
        if let Act::Serve(order) = act {
            if self.pairs[order as usize] == Pair::Barred {
                return None;
            }
        }
        let (minutes, cents) = week.deed(label.place, act)?;
        let start = u64::from(label.clock.at) + u64::from(stay.ready) + u64::from(stay.off);
        if !self.keeps_office(label, &stay, act, start, start + u64::from(minutes)) {
            return None;
        }
        let clock = go(&label.clock, stay, act.mark(), minutes).ok()?;
        let fee = if label.fee_paid { 0 } else { week.drivers[self.driver].fee };
        let night = if stay.kind == Kind::Daily && label.place != 0 { week.night } else { 0 };
        let (place, served, loaded, price) = match act {
            Act::Leg(to) => (to, label.served, label.loaded, 0),
            Act::Serve(order) => (label.place, label.served | 1 << order, label.loaded, self.prices[order as usize]),
            Act::Load => (label.place, label.served, true, 0),
        };
        let value = label.value + (fee + night + cents) as i64 - price as i64;
        Some(Label { clock, place, served, used: week.used_after(act, label.used), loaded, fee_paid: true, value })
    }
}

// The order on labels, as crates/dominance has it.

impl Clock {
    #[inline]
    fn dominates(&self, b: &Clock) -> bool {
        (self.at <= b.at) & (self.half == b.half) & (self.day_from >= b.day_from) & (self.rest_from >= b.rest_from)
            & (self.period <= b.period) & (self.drive_day <= b.drive_day) & (self.work_run <= b.work_run)
            & (self.work_day <= b.work_day) & (self.drive_week <= b.drive_week) & (self.work_week <= b.work_week)
            & (self.pause_day >= b.pause_day) & (self.split | !b.split) & (self.long_days <= b.long_days)
            & (self.reduced <= b.reduced) & ((self.prev_weekly >= 2_700) | (b.prev_weekly < 2_700))
            & (self.owed <= b.owed) & ((self.owed == 0) | (self.due >= b.due))
    }
}

#[inline]
fn betters(a: &Label, b: &Label, forced: u128, reach: u128) -> bool {
    (a.place == b.place) & (a.value <= b.value) & (a.served & reach & !b.served == 0) & ((a.served ^ b.served) & forced == 0)
        & (a.used <= b.used) & (a.loaded | !b.loaded) & a.clock.dominates(&b.clock)
}

// The least minutes and cents of walks, and the prune by them, as crates/duty_label has them.

struct Walks { places: usize, minutes: Vec<u64>, cents: Vec<u64> }

fn shortest(places: usize, legs: impl Iterator<Item = (u32, u32, u64)>) -> Vec<u64> {
    let mut table = vec![u64::MAX; places * places];
    for place in 0..places {
        table[place * places + place] = 0;
    }
    for (from, to, number) in legs {
        let cell = &mut table[from as usize * places + to as usize];
        *cell = number.min(*cell);
    }
    for middle in 0..places {
        for from in 0..places {
            for to in 0..places {
                let over = table[from * places + middle].saturating_add(table[middle * places + to]);
                let cell = &mut table[from * places + to];
                *cell = over.min(*cell);
            }
        }
    }
    table
}

impl Walks {
    fn new(week: &Week) -> Walks {
        let places = week.places as usize;
        Walks {
            places,
            minutes: shortest(places, week.legs.iter().map(|leg| (leg.from, leg.to, u64::from(leg.minutes)))),
            cents: shortest(places, week.legs.iter().map(|leg| (leg.from, leg.to, leg.cents))),
        }
    }

    fn minutes(&self, from: u32, to: u32) -> u64 { self.minutes[from as usize * self.places + to as usize] }

    fn can_reach(&self, order: &Order, label: &Label) -> bool {
        label.clock.at <= order.closes && self.minutes(label.place, order.place) <= u64::from(order.closes - label.clock.at)
    }

    fn reached(&self, week: &Week, label: &Label) -> u128 {
        week.orders.iter().enumerate().fold(0, |bits, (n, order)| bits | u128::from(self.can_reach(order, label)) << n)
    }

    fn is_hopeless(&self, asked: &Asked, label: &Label, known: Option<i64>) -> bool {
        let week = &asked.case.week;
        if u64::from(label.clock.at).saturating_add(self.minutes(label.place, 0)) > u64::from(WEEK_MINUTES) {
            return true;
        }
        let mut brought = 0;
        for (n, order) in week.orders.iter().enumerate() {
            if label.served >> n & 1 == 1 {
                continue;
            }
            if !self.can_reach(order, label) {
                if asked.pairs[n] == Pair::Forced {
                    return true;
                }
            } else if asked.pairs[n] != Pair::Barred {
                brought += asked.prices[n];
            }
        }
        let home = self.cents[label.place as usize * self.places];
        known.is_some_and(|known| i128::from(known) <= i128::from(label.value) + i128::from(home) - i128::from(brought))
    }
}

// The outlook.

const NOTHING: u64 = 2_000_000_000_000;
const LIMIT: u64 = 4_000_000_000_000;
const ENTRIES: usize = 62_000;
const RING: u32 = 256;
const MOST: u32 = 4;
const SHAPES: [(u32, u32); 12] =
    [(4, 15), (4, 30), (3, 15), (3, 30), (4, 60), (3, 60), (2, 15), (2, 30), (2, 60), (1, 15), (1, 60), (0, 15)];

#[derive(Clone, Copy)]
struct Spot { place: u32, minute: u32, orders: u128 }
#[derive(Clone, Copy)]
struct Entry { spot: Spot, numbers: [u64; 32] }
#[derive(Clone, Copy, Default)]
struct Shelf { remembered: u128, before: u32 }
struct Outlook {
    capacity: u32, unit: u32, barred: u128, places: u32, step: u32, width: usize,
    shelves: Vec<Shelf>, parts: Vec<u32>, entries: Vec<Entry>,
}

fn number_of(orders: u128, remembered: u128) -> usize {
    let (mut rest, mut number) = (remembered, 0);
    for n in 0..MOST {
        let low = rest & rest.wrapping_neg();
        number |= usize::from(orders & low != 0) << n;
        rest &= !low;
    }
    number
}

fn set_of(number: u32, remembered: u128) -> u128 {
    let (mut rest, mut orders) = (remembered, 0);
    for n in 0..MOST {
        let low = rest & rest.wrapping_neg();
        if number >> n & 1 == 1 {
            orders |= low;
        }
        rest &= !low;
    }
    orders
}

fn divisor(a: u32, b: u32) -> u32 { if b == 0 { a } else { divisor(b, a % b) } }

fn unit_for(week: &Week, capacity: u32) -> u32 {
    let unit = week.orders.iter().fold(0, |unit, order| divisor(unit, order.kg));
    if unit == 0 { 1 } else { unit * (capacity / unit / 32 + 1) }
}

fn raise(row: &mut [u64; 32], next: &[u64; 32], from: usize, levels: usize, price: u64, cents: u64) {
    for (number, next) in row[..levels].iter_mut().zip(&next[from..]) {
        *number = (*number).max(next.saturating_add(price).saturating_sub(cents));
    }
}

impl Outlook {
    fn new() -> Outlook {
        let blank = Entry { spot: Spot { place: 0, minute: WEEK_MINUTES + 1, orders: 0 }, numbers: [0; 32] };
        Outlook {
            capacity: 0, unit: 1, barred: 0, places: 0, step: 15, width: 0,
            shelves: vec![Shelf::default(); 673 * 64], parts: vec![0; 673], entries: vec![blank; ENTRIES],
        }
    }

    fn shelf(&self, place: u32, minute: u32) -> Shelf { self.shelves[(minute / self.step * self.places + place) as usize] }

    fn row(&self, spot: Spot) -> usize {
        let shelf = self.shelf(spot.place, spot.minute);
        shelf.before as usize + number_of(spot.orders, shelf.remembered)
    }

    fn ring_slot(&self, spot: Spot) -> usize { (spot.minute % RING) as usize * self.width + self.row(spot) }

    fn kept_slot(&self, spot: Spot) -> usize {
        RING as usize * self.width + self.parts[(spot.minute / self.step) as usize] as usize + self.row(spot)
    }

    fn numbers_in(&self, slot: usize, spot: Spot) -> &[u64; 32] {
        const NONE: &[u64; 32] = &[LIMIT; 32];
        match self.entries.get(slot) {
            Some(Entry { spot: at, numbers })
                if at.place == spot.place && at.minute <= spot.minute && at.orders & !spot.orders == 0 => numbers,
            _ => NONE,
        }
    }

    fn numbers(&self, spot: Spot) -> &[u64; 32] {
        let slot = match self.entries.get(self.ring_slot(spot)) {
            Some(entry) if entry.spot.minute == spot.minute => self.ring_slot(spot),
            _ => self.kept_slot(spot),
        };
        self.numbers_in(slot, spot)
    }

    // Once the table is filled, of later minutes none but those that are kept are left.
    fn last_numbers(&self, spot: Spot) -> &[u64; 32] {
        if spot.minute < RING { self.numbers(spot) } else { self.numbers_in(self.kept_slot(spot), spot) }
    }

    fn choice(&self, asked: &Asked, walks: &Walks, place: u32, part: u32, most: u32) -> u128 {
        let from = u64::from(part * self.step);
        let is_active = |order: &Order| {
            u64::from(order.opens + order.service).saturating_add(walks.minutes(order.place, place)) < from + u64::from(self.step)
                && from.saturating_add(walks.minutes(place, order.place)) <= u64::from(order.closes)
        };
        let mut chosen = 0;
        for _ in 0..most {
            let (mut best, mut found) = (0, 0);
            for (n, order) in asked.case.week.orders.iter().enumerate() {
                if asked.prices[n] > best && (chosen | self.barred) >> n & 1 == 0 && is_active(order) {
                    (best, found) = (asked.prices[n], 1 << n);
                }
            }
            chosen |= found;
        }
        chosen
    }

    fn lay(&mut self, asked: &Asked, walks: &Walks, most: u32) -> usize {
        let mut kept = 0;
        self.width = 0;
        for part in 0..WEEK_MINUTES / self.step + 1 {
            let mut before = 0;
            for place in 0..self.places {
                let remembered = self.choice(asked, walks, place, part, most);
                self.shelves[(part * self.places + place) as usize] = Shelf { remembered, before };
                before += 1 << remembered.count_ones();
            }
            self.parts[part as usize] = kept;
            kept += before;
            self.width = self.width.max(before as usize);
        }
        self.width * RING as usize + kept as usize
    }

    fn best_row(&self, asked: &Asked, spot: Spot) -> [u64; 32] {
        let week = &asked.case.week;
        let Spot { place, minute, orders } = spot;
        let mut row = if minute < WEEK_MINUTES { *self.numbers(Spot { minute: minute + 1, ..spot }) } else { [0; 32] };
        if place == 0 {
            let loaded = if minute + week.load <= WEEK_MINUTES { self.numbers(Spot { minute: minute + week.load, ..spot })[0] } else { 0 };
            row.iter_mut().for_each(|number| *number = (*number).max(NOTHING).max(loaded));
        }
        for leg in &week.legs {
            if leg.from == place && minute + leg.minutes <= WEEK_MINUTES {
                raise(&mut row, self.numbers(Spot { place: leg.to, minute: minute + leg.minutes, orders }), 0, 32, 0, leg.cents);
            }
        }
        for (n, order) in week.orders.iter().enumerate() {
            if order.place == place && order.opens <= minute && minute <= order.closes && minute + order.service <= WEEK_MINUTES
                && order.kg <= self.capacity && orders >> n & 1 == 0
            {
                let next = self.numbers(Spot { place, minute: minute + order.service, orders: orders | 1 << n });
                raise(&mut row, next, (order.kg / self.unit) as usize, ((self.capacity - order.kg) / self.unit + 1) as usize, asked.prices[n], 0);
            }
        }
        row
    }

    fn fill_place(&mut self, asked: &Asked, place: u32, minute: u32) {
        let remembered = self.shelf(place, minute).remembered;
        for number in 0..1 << remembered.count_ones() {
            let spot = Spot { place, minute, orders: set_of(number, remembered) | self.barred };
            let entry = Entry { spot, numbers: self.best_row(asked, spot) };
            let (ring, kept) = (self.ring_slot(spot), self.kept_slot(spot));
            self.entries[ring] = entry;
            if minute % self.step == 0 {
                self.entries[kept] = entry;
            }
        }
    }

    fn fill(&mut self, asked: &Asked, walks: &Walks) {
        self.capacity = asked.case.week.drivers[asked.driver].capacity;
        let wish = unit_for(&asked.case.week, self.capacity);
        self.unit = if self.capacity < 32 * wish { wish } else { self.capacity / 32 + 1 };
        self.barred = asked.barred;
        self.places = asked.case.week.places;
        for (most, step) in SHAPES {
            self.step = step;
            if self.lay(asked, walks, most) <= ENTRIES {
                break;
            }
        }
        for minute in (0..=WEEK_MINUTES).rev() {
            for place in 0..self.places {
                self.fill_place(asked, place, minute);
            }
        }
    }

    fn gain(&self, label: &Label) -> i64 {
        let load = if label.loaded { label.used } else { self.capacity + 1 };
        let row = self.last_numbers(Spot { place: label.place, minute: label.clock.at, orders: label.served | self.barred });
        row[(load / self.unit).min(31) as usize].min(LIMIT) as i64 - NOTHING as i64
    }
}

// The beams.

const BUCKETS: usize = 673;
const WIDEST: usize = 64;

#[derive(Clone, Copy)]
struct Node { label: Label, step: Step, parent: u32, bound: i64, is_extended: bool }
struct Beam {
    nodes: Vec<Node>, members: Vec<u32>, counts: Vec<usize>, floors: Vec<i64>,
    width: usize, known: i64, best: Option<(u32, Step)>, steps: Vec<Step>,
}
/// An act, the window of its start, and the label after it but for its clock, its fee and its night.
struct Prospect { act: Act, minutes: u32, opens: u32, closes: u32, after: Label }

impl Node {
    fn rank(&self) -> (i64, i64) { (self.bound, self.label.value) }
}

const NO_STEP: Step = Step { stay: Stay { ready: 0, off: 0, kind: Kind::Plain }, act: Act::Load };

impl Beam {
    fn new() -> Beam {
        Beam {
            nodes: Vec::with_capacity(BUCKETS * WIDEST), members: vec![0; BUCKETS * WIDEST], counts: vec![0; BUCKETS],
            floors: vec![i64::MAX; BUCKETS], width: 0, known: 0, best: None, steps: Vec::new(),
        }
    }

    fn bucket(&self, bucket: usize) -> &[u32] { &self.members[bucket * WIDEST..][..self.counts[bucket]] }

    fn outermost(&self, bucket: usize, is_first: bool) -> Option<u32> {
        let open = self.bucket(bucket).iter().copied().filter(|number| !self.nodes[*number as usize].is_extended);
        open.reduce(|best, number| {
            let is_better = (self.nodes[number as usize].rank() < self.nodes[best as usize].rank()) == is_first;
            if is_better { number } else { best }
        })
    }

    fn keep(&mut self, node: Node, forced: u128) {
        let bucket = (node.label.clock.at / 15) as usize;
        let all = u128::MAX;
        if self.bucket(bucket).iter().map(|n| &self.nodes[*n as usize].label).any(|a| a.fee_paid && a.place == node.label.place && betters(a, &node.label, forced, all)) {
            return;
        }
        if node.label.fee_paid {
            for place in 0..self.counts[bucket] {
                let other = &mut self.nodes[self.members[bucket * WIDEST + place] as usize];
                if !other.is_extended && other.label.place == node.label.place && betters(&node.label, &other.label, forced, all) {
                    other.bound = i64::MAX;
                }
            }
        }
        self.insert(bucket, node);
        if self.counts[bucket] >= self.width {
            self.floors[bucket] = self.outermost(bucket, false).map_or(i64::MIN, |number| self.nodes[number as usize].bound);
        }
    }

    fn insert(&mut self, bucket: usize, node: Node) {
        if self.counts[bucket] < self.width {
            self.members[bucket * WIDEST + self.counts[bucket]] = self.nodes.len() as u32;
            self.counts[bucket] += 1;
            self.nodes.push(node);
        } else if let Some(number) = self.outermost(bucket, false) {
            let last = &mut self.nodes[number as usize];
            if node.rank() < last.rank() {
                *last = node;
            }
        }
    }

    fn try_stay(&mut self, asked: &Asked, outlook: &Outlook, number: u32, from: &Label, prospect: &Prospect, stay: Stay) -> bool {
        let start = from.clock.at + stay.ready + stay.off;
        if start < prospect.opens {
            return true;
        }
        let end = start + prospect.minutes;
        if start > prospect.closes || end > WEEK_MINUTES {
            return false;
        }
        let mut after = prospect.after;
        after.clock.at = end;
        let gain = outlook.gain(&after);
        let bound = after.value - gain;
        if bound >= self.known {
            return false;
        }
        if bound > self.floors[(end / 15) as usize] {
            return true;
        }
        if let Some(label) = asked.child(from, stay, prospect.act) {
            self.note(asked, number, Step { stay, act: prospect.act }, label, gain);
        }
        true
    }

    fn note(&mut self, asked: &Asked, parent: u32, step: Step, label: Label, gain: i64) {
        if label.place == 0 && asked.forced & !label.served == 0 && label.value < self.known {
            self.known = label.value;
            self.best = Some((parent, step));
        }
        let bound = label.value - gain;
        if bound < self.known {
            self.keep(Node { label, step, parent, bound, is_extended: false }, asked.forced);
        }
    }

    fn try_act(&mut self, asked: &Asked, outlook: &Outlook, number: u32, from: &Label, prospect: &Prospect) {
        for off in LENGTHS {
            let stay = Stay { ready: prospect.opens.saturating_sub(from.clock.at + off), off, kind: Kind::Plain };
            self.try_stay(asked, outlook, number, from, prospect, stay);
        }
        let grid = asked.case.week.grid;
        for (kind, least) in [(Kind::Daily, 540), (Kind::Weekly, 1_440)] {
            if kind == Kind::Weekly && from.place != 0 {
                return;
            }
            let first = from.clock.at + least - from.clock.off.min(least);
            for turn in first.div_ceil(grid)..WEEK_MINUTES / grid {
                let stay = Stay { ready: 0, off: turn * grid - from.clock.at.min(turn * grid), kind };
                if !self.try_stay(asked, outlook, number, from, prospect, stay) {
                    break;
                }
            }
        }
    }

    fn extend(&mut self, asked: &Asked, outlook: &Outlook, number: u32, from: &Label) {
        let week = &asked.case.week;
        for leg in week.legs.iter().filter(|leg| leg.from == from.place) {
            let after = Label { place: leg.to, value: from.value + leg.cents as i64, ..*from };
            let act = Act::Leg(leg.to);
            self.try_act(asked, outlook, number, from, &Prospect { act, minutes: leg.minutes, opens: 0, closes: WEEK_MINUTES, after });
        }
        for (n, order) in week.orders.iter().enumerate() {
            if order.place != from.place || asked.pairs[n] == Pair::Barred {
                continue;
            }
            let after = Label { served: from.served | 1 << n, used: from.used + order.kg, value: from.value - asked.prices[n] as i64, ..*from };
            let act = Act::Serve(n as u32);
            self.try_act(asked, outlook, number, from, &Prospect { act, minutes: order.service, opens: order.opens, closes: order.closes, after });
        }
        if from.place == 0 {
            let after = Label { used: 0, loaded: true, ..*from };
            self.try_act(asked, outlook, number, from, &Prospect { act: Act::Load, minutes: week.load, opens: 0, closes: WEEK_MINUTES, after });
        }
    }

    fn run_bucket(&mut self, asked: &Asked, outlook: &Outlook, bucket: usize) {
        for _ in 0..self.width {
            let Some(number) = self.outermost(bucket, true) else { return };
            let node = &mut self.nodes[number as usize];
            node.is_extended = true;
            if node.bound >= self.known {
                return;
            }
            let label = node.label;
            self.extend(asked, outlook, number, &label);
        }
    }

    fn run(&mut self, asked: &Asked, outlook: &Outlook, width: usize, target: i64) -> bool {
        let known = std::mem::replace(&mut self.known, target);
        self.width = width;
        self.best = None;
        self.nodes.clear();
        self.counts.fill(0);
        self.floors.fill(i64::MAX);
        self.keep(Node { label: asked.first(), step: NO_STEP, parent: 0, bound: i64::MIN, is_extended: false }, asked.forced);
        for bucket in 0..BUCKETS {
            self.run_bucket(asked, outlook, bucket);
        }
        let Some((node, step)) = self.best else {
            self.known = known;
            return false;
        };
        self.trace(node, step);
        true
    }

    fn trace(&mut self, node: u32, last: Step) {
        self.steps.clear();
        self.steps.push(last);
        let mut number = node;
        while number != 0 {
            self.steps.push(self.nodes[number as usize].step);
            number = self.nodes[number as usize].parent;
        }
        self.steps.reverse();
    }

    fn find(&mut self, asked: &Asked, outlook: &Outlook) -> Option<i64> {
        self.steps.clear();
        self.known = if asked.forced == 0 { 0 } else { 1_000_000_000_000 };
        let least = -outlook.gain(&asked.first());
        for part in [8, 4, 2] {
            let target = (least + (-least).max(0) / part).min(self.known);
            if self.run(asked, outlook, 4, target) {
                break;
            }
        }
        for width in [4, 16, 64] {
            self.run(asked, outlook, width, self.known);
        }
        self.value(asked)
    }

    /// The value of the steps that were found, if they are a duty inside.
    fn value(&self, asked: &Asked) -> Option<i64> {
        let mut label = asked.first();
        for step in &self.steps {
            label = asked.child(&label, step.stay, step.act)?;
        }
        (label.place == 0 && asked.forced & !label.served == 0).then_some(label.value)
    }
}

// The exact run.

#[derive(Clone, Copy)]
struct Slot { label: Label, step: Step, parent: u32, same_minute: u32, same_cell: u32 }
#[derive(PartialEq)]
enum Tried { Full, Done, RuledOut }
struct Store<'a> {
    asked: &'a Asked<'a>, walks: &'a Walks, outlook: &'a Outlook, most: usize,
    slots: Vec<Slot>, minutes: Vec<u32>, cells: Vec<u32>, known: Option<i64>, best: Option<u32>,
}

/// The hour of the week in which a label's work day began, and the cell of such labels at its place.
fn day_hour(label: &Label) -> usize { (label.clock.day_from.max(0) as usize / 60).min(168) }
fn cell(label: &Label, hour: usize) -> usize { (label.place as usize * 2 + usize::from(label.clock.half)) * 169 + hour }

impl Store<'_> {
    fn store(&mut self, label: &Label, step: Step, parent: u32) -> bool {
        let (minute, cell, number) = (label.clock.at as usize, cell(label, day_hour(label)), self.slots.len());
        if number == self.most {
            return false;
        }
        self.slots.push(Slot { label: *label, step, parent, same_minute: self.minutes[minute], same_cell: self.cells[cell] });
        self.minutes[minute] = number as u32 + 1;
        self.cells[cell] = number as u32 + 1;
        if label.place == 0 && self.asked.forced & !label.served == 0 && self.known.is_none_or(|known| label.value < known) {
            self.known = Some(label.value);
            self.best = Some(number as u32);
        }
        true
    }

    fn is_bettered(&self, label: &Label, from: u32) -> bool {
        let reach = self.walks.reached(&self.asked.case.week, label);
        for hour in day_hour(label)..=label.clock.at as usize / 60 {
            let mut link = self.cells[cell(label, hour)];
            while link > from {
                let slot = &self.slots[link as usize - 1];
                if betters(&slot.label, label, self.asked.forced, reach) {
                    return true;
                }
                link = slot.same_cell;
            }
        }
        false
    }

    fn try_step(&mut self, number: u32, from: &Label, step: Step) -> Tried {
        let Some(label) = self.asked.child(from, step.stay, step.act) else { return Tried::Done };
        if self.known.is_some_and(|known| label.value - self.outlook.gain(&label) >= known) {
            return Tried::RuledOut;
        }
        if self.walks.is_hopeless(self.asked, &label, self.known) || self.is_bettered(&label, 1) {
            return Tried::Done;
        }
        if self.store(&label, step, number) { Tried::Done } else { Tried::Full }
    }

    fn try_act(&mut self, number: u32, from: &Label, act: Act) -> bool {
        let week = &self.asked.case.week;
        let at = from.clock.at;
        let (opens, turns) = match act {
            Act::Serve(order) => (week.orders[order as usize].opens, week.orders[order as usize].closes / week.grid + 1),
            _ => (0, WEEK_MINUTES / week.grid),
        };
        for off in LENGTHS {
            let stay = Stay { ready: opens.saturating_sub(at + off), off, kind: Kind::Plain };
            if self.try_step(number, from, Step { stay, act }) == Tried::Full {
                return false;
            }
        }
        for kind in [Kind::Daily, Kind::Weekly] {
            if kind == Kind::Weekly && from.place != 0 {
                break;
            }
            let shortest = least_run(kind, from.clock.prev_weekly, from.clock.owed);
            let first = (at + shortest.saturating_sub(from.clock.off)).div_ceil(week.grid);
            for turn in first..turns.min(WEEK_MINUTES / week.grid) {
                let stay = Stay { ready: 0, off: (turn * week.grid).saturating_sub(at), kind };
                match self.try_step(number, from, Step { stay, act }) {
                    Tried::Full => return false,
                    Tried::RuledOut => break,
                    Tried::Done => {}
                }
            }
        }
        true
    }

    fn extend(&mut self, number: u32, from: &Label) -> bool {
        let week = &self.asked.case.week;
        week.legs.iter().filter(|leg| leg.from == from.place).all(|leg| self.try_act(number, from, Act::Leg(leg.to)))
            && (0..week.orders.len() as u32).filter(|n| week.orders[*n as usize].place == from.place).all(|n| self.try_act(number, from, Act::Serve(n)))
            && (from.place != 0 || self.try_act(number, from, Act::Load))
    }

    fn exhaust(&mut self) -> bool {
        for minute in 0..=WEEK_MINUTES as usize {
            let mut link = self.minutes[minute];
            while link > 0 {
                let Slot { label, same_minute, .. } = self.slots[link as usize - 1];
                let is_settled = link > 1 && self.is_bettered(&label, link);
                if !is_settled && !self.extend(link - 1, &label) {
                    return false;
                }
                link = same_minute;
            }
        }
        true
    }
}

fn priced(asked: &Asked, most: usize) -> String {
    let walks = Walks::new(&asked.case.week);
    let mut outlook = Outlook::new();
    outlook.fill(asked, &walks);
    let known = Beam::new().find(asked, &outlook);
    let mut store = Store {
        asked, walks: &walks, outlook: &outlook, most, slots: Vec::with_capacity(most), minutes: vec![0; WEEK_MINUTES as usize + 1],
        cells: vec![0; 64 * 2 * 169], known, best: None,
    };
    let is_whole = store.store(&asked.first(), NO_STEP, 0) && store.exhaust();
    match store.known {
        _ if !is_whole => format!("spent {}", store.slots.len()),
        Some(value) => format!("{value} {}", store.slots.len()),
        None => format!("none {}", store.slots.len()),
    }
}

// The week's text.

/// Days from 1970-01-01 to a date.
fn days(date: &str) -> i64 {
    let part = |from: usize, to: usize| date[from..to].parse::<i64>().unwrap();
    let (year, month, day) = (part(0, 4), part(5, 7), part(8, 10));
    let (year, month) = if month <= 2 { (year - 1, month + 9) } else { (year, month - 3) };
    365 * year + year / 4 - year / 100 + year / 400 + (153 * month + 2) / 5 + day - 719_469
}

fn stamp(monday: i64, text: &str) -> u32 {
    let clock = |from: usize| text[from..from + 2].parse::<i64>().unwrap();
    ((days(text) - monday) * 1440 + clock(11) * 60 + clock(14)) as u32
}

fn read(text: &str) -> Case {
    let mut case = Case { week: Week::default(), past: vec![] };
    let (mut monday, mut places, mut drivers) = (0, vec![], vec![]);
    let index = |names: &[String], name: &str| names.iter().position(|at| at == name).unwrap();
    for line in text.lines() {
        let row: Vec<&str> = line.split(',').collect();
        let number = |n: usize| row[n].parse::<u32>().unwrap();
        let week = &mut case.week;
        match row[0] {
            "week" => { monday = days(row[1]); (week.load, week.night, week.grid) = (number(2), number(3).into(), number(4)); }
            "place" => { places.push(row[1].to_string()); week.places += 1; }
            "leg" => week.legs.push(Leg { from: index(&places, row[1]) as u32, to: index(&places, row[2]) as u32, minutes: number(3), cents: number(4).into() }),
            "driver" => {
                drivers.push(row[1].to_string());
                week.drivers.push(Driver { capacity: number(2), fee: number(3).into() });
                case.past.push(History { prev_weekly: 0, stints: vec![], open_off: 0, prev_drive: 0, work16: [0; 16], owed: 0, due: 0 });
            }
            "order" => week.orders.push(Order {
                place: index(&places, row[2]) as u32, opens: stamp(monday, row[3]), closes: stamp(monday, row[4]),
                service: number(5), kg: number(6), price: number(7).into(),
            }),
            "rest" => case.past[index(&drivers, row[1])].prev_weekly = number(3),
            "worked" => {
                let past = &mut case.past[index(&drivers, row[1])];
                past.prev_drive = number(2);
                past.work16 = std::array::from_fn(|n| number(n + 3));
            }
            "past" => {
                let (mark, kind) = match row[2] {
                    "DRIVE" => (Mark::Drive, Kind::Plain), "WORK" => (Mark::Work, Kind::Plain), "READY" => (Mark::Ready, Kind::Plain),
                    "OFF" => (Mark::Off, Kind::Plain), "DAILY" => (Mark::Off, Kind::Daily), _ => (Mark::Off, Kind::Weekly),
                };
                case.past[index(&drivers, row[1])].stints.push(Stint { mark, minutes: number(3), kind });
            }
            word => panic!("{word}"),
        }
    }
    for past in &mut case.past {
        while let Some(last) = past.stints.pop_if(|last| last.mark == Mark::Off) {
            past.open_off += last.minutes;
        }
    }
    case
}

fn main() {
    let chunks: usize = std::env::args().nth(1).and_then(|word| word.parse().ok()).unwrap_or(256);
    let mut text = String::new();
    std::io::stdin().read_to_string(&mut text).unwrap();
    let case = read(&text);
    let pairs = vec![Pair::Free; case.week.orders.len()];
    let prices: Vec<u64> = case.week.orders.iter().map(|order| order.price).collect();
    println!("{}", priced(&Asked { case: &case, driver: 0, pairs: &pairs, prices: &prices, forced: 0, barred: 0 }, 1024 * chunks));
}
