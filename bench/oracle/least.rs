//! The least cost of a small week's plans, by going through duties step by step.
//!
//! For each driver every duty is gone through, minute by minute of its last act's end, but for these, which no cheaper plan needs:
//!
//! - A plain stay has Ready minutes only before a service, and just those up to the window's opening. To wait elsewhere, or longer,
//!   does not help: what is done earlier may wait before the next service, and Ready minutes count for a day as any others.
//! - A rest has no Ready minutes before it: they could be rest.
//! - Of two beginnings that have served the same and end at one minute at one place, one is dropped where it costs no less, has
//!   no less load and no hours count that is better (`Walk::is_no_worse`).
//! - A beginning is dropped where its cents and the least way home are no less than what the subcontractor takes for all that it
//!   served and may still serve: at home, with those orders out, it is no dearer.
//! - Where nothing can be served any more, a rest ends at the first grid minute that makes it long enough for a daily rest, for a
//!   regular one, or for one that pays a debt: to be home later helps nothing.
//! - A daily or weekly rest before an act ends no later than the last window of the orders that can still be served.
//! - A load act follows a load act, without a service between, at most once in a duty (that once may shift a start off the grid).
//!
//! Only the last of these could cost a plan; each other keeps one of the cheapest. What is found is a duty, and is judged again
//! by `duties::judge`, so the printed cost is that of a lawful plan in any case: a desk that calls a dearer plan proved is wrong.

use crate::duties::{judge, Act, Step};
use crate::walk::Walk;
use crate::weeks::{Driver, Kind, Mark, Week, WEEK};
use std::collections::BTreeMap;

const NEVER: u32 = 1_000_000;
const PLAIN_OFFS: [u32; 5] = [0, 15, 30, 45, 180];

/// The beginning of a duty.
#[derive(Clone)]
struct Front {
    walk: Walk,
    place: usize,
    served: u32,
    used: u32,
    loaded: bool,
    has_spare: bool,
    cents: u64,
    parent: usize,
    step: Option<Step>,
}

/// The least minutes and cents from each place to each, over any roads.
struct Roads { minutes: Vec<Vec<u32>>, cents: Vec<Vec<u64>> }

fn roads_of(week: &Week) -> Roads {
    let count = week.places.len();
    let mut roads = Roads { minutes: vec![vec![NEVER; count]; count], cents: vec![vec![u64::MAX / 4; count]; count] };
    for place in 0..count {
        (roads.minutes[place][place], roads.cents[place][place]) = (0, 0);
    }
    for leg in &week.legs {
        roads.minutes[leg.from][leg.to] = leg.minutes;
        roads.cents[leg.from][leg.to] = leg.cents;
    }
    for over in 0..count {
        for from in 0..count {
            for to in 0..count {
                roads.minutes[from][to] = roads.minutes[from][to].min(roads.minutes[from][over] + roads.minutes[over][to]);
                roads.cents[from][to] = roads.cents[from][to].min(roads.cents[from][over] + roads.cents[over][to]);
            }
        }
    }
    roads
}

/// The fronts of one driver, in buckets by the minute at which they end.
struct Search<'a> {
    week: &'a Week,
    driver: &'a Driver,
    roads: Roads,
    fronts: Vec<Front>,
    /// by minute, then by place and by what was served
    ending: Vec<BTreeMap<(usize, u32), Vec<usize>>>,
}

impl Search<'_> {
    fn has_served(front: &Front, order: usize) -> bool { front.served >> order & 1 == 1 }

    /// The orders that could still be reached in their windows, were there no hours rules.
    fn servable<'b>(&'b self, front: &'b Front, at: u32) -> impl Iterator<Item = usize> + 'b {
        (0..self.week.orders.len()).filter(move |order| {
            let asked = &self.week.orders[*order];
            let arrival = at + self.roads.minutes[front.place][asked.place];
            !Self::has_served(front, *order) && arrival <= asked.closes
        })
    }

    /// Whether the duty may still save something, by prices and cents alone, where it goes on from this minute.
    fn may_save(&self, front: &Front, at: u32) -> bool {
        let served = (0..self.week.orders.len()).filter(|order| Self::has_served(front, *order));
        let saved: u64 = served.chain(self.servable(front, at)).map(|order| self.week.orders[order].price).sum();
        let home = at + self.roads.minutes[front.place][0];
        home <= WEEK && front.cents + self.roads.cents[front.place][0] < saved
    }

    fn acts(&self, front: &Front, servable: &[usize]) -> Vec<Act> {
        let mut acts: Vec<Act> =
            self.week.legs.iter().filter(|leg| leg.from == front.place).map(|leg| Act::Drive(leg.to)).collect();
        let fits = |order: usize| front.loaded && front.used + self.week.orders[order].kg <= self.driver.capacity;
        for order in servable {
            if self.week.orders[*order].place == front.place && fits(*order) {
                acts.push(Act::Serve(*order));
            }
        }
        if front.place == 0 && !servable.is_empty() && (front.used > 0 || !front.loaded || !front.has_spare) {
            acts.push(Act::Load);
        }
        acts
    }

    /// The first grid minutes at which a rest from here is at least so long.
    fn rest_end(&self, front: &Front, length: i64) -> u32 {
        let least = (length - front.walk.open()).max((front.walk.open() == 0) as i64);
        let end = (front.walk.at + least) as u32;
        end.div_ceil(self.week.grid) * self.week.grid
    }

    /// When a rest may end: see the file's head.
    fn rest_ends(&self, front: &Front, kind: Kind, servable: &[usize]) -> Vec<u32> {
        let least = self.rest_end(front, if kind == Kind::Daily { 540 } else { 1_440 });
        let latest = |order: &usize| self.week.orders[*order].closes - self.roads.minutes[front.place][self.week.orders[*order].place];
        let last = servable.iter().map(latest).max().unwrap_or(0);
        let mut ends: Vec<u32> = (least..=last).step_by(self.week.grid as usize).collect();
        if kind == Kind::Daily {
            ends.push(least);
            ends.push(self.rest_end(front, 660));
            ends.push(self.rest_end(front, 660 + front.walk.owed()));
        }
        ends.sort_unstable();
        ends.dedup();
        ends
    }

    /// The stays that may come before an act.
    fn stays(&self, front: &Front, act: Act, servable: &[usize]) -> Vec<(u32, u32, Kind)> {
        let at = front.walk.at as u32;
        let opens = if let Act::Serve(order) = act { self.week.orders[order].opens } else { 0 };
        let ready = |off: u32| opens.saturating_sub(at + off);
        let mut stays: Vec<(u32, u32, Kind)> = PLAIN_OFFS.iter().map(|off| (ready(*off), *off, Kind::Plain)).collect();
        stays.retain(|(ready, _, _)| *ready == 0 || front.walk.open() == 0);
        stays.extend(self.rest_ends(front, Kind::Daily, servable).iter().map(|end| (0, end - at, Kind::Daily)));
        if front.place == 0 && !servable.is_empty() {
            stays.extend(self.rest_ends(front, Kind::Weekly, servable).iter().map(|end| (0, end - at, Kind::Weekly)));
        }
        stays
    }

    /// Does the act's part of the office rules: where the lorry is then, its load and its cents. Gives the act's mark and minutes.
    fn act(&self, front: &mut Front, act: Act, start: u32) -> Option<(Mark, u32)> {
        match act {
            Act::Drive(to) => {
                let leg = self.week.leg(front.place, to)?;
                front.place = to;
                front.cents += leg.cents;
                Some((Mark::Drive, leg.minutes))
            }
            Act::Serve(order) => {
                let asked = &self.week.orders[order];
                front.served |= 1 << order;
                front.used += asked.kg;
                (asked.opens..=asked.closes).contains(&start).then_some((Mark::Work, asked.service))
            }
            Act::Load => {
                front.has_spare |= front.loaded && front.used == 0;
                (front.used, front.loaded) = (0, true);
                Some((Mark::Work, self.week.load))
            }
        }
    }

    /// The front with one step more, where the rules let it and it may still save something.
    fn child(&self, number: usize, act: Act, stay: (u32, u32, Kind)) -> Option<Front> {
        let (ready, off, kind) = stay;
        let mut front = self.fronts[number].clone();
        let start = front.walk.at as u32 + ready + off;
        front.step = Some(Step { ready, off, kind, act });
        if front.parent == usize::MAX {
            front.cents = self.driver.fee;
        }
        front.parent = number;
        if kind == Kind::Daily && front.place != 0 {
            front.cents += self.week.night;
        }
        let (mark, minutes) = self.act(&mut front, act, start)?;
        if start + minutes > WEEK || !self.may_save(&front, start + minutes) || !front.walk.go(Mark::Ready, ready) {
            return None;
        }
        if off > 0 || kind != Kind::Plain {
            front.walk.rest(off, kind);
        }
        front.walk.go(mark, minutes).then_some(front)
    }

    /// Whether a front is as good as another that ends with it, at the same place with the same orders served.
    fn is_no_worse(one: &Front, other: &Front) -> bool {
        one.used <= other.used
            && (one.loaded || !other.loaded)
            && (!one.has_spare || other.has_spare)
            && one.cents <= other.cents
            && one.walk.is_no_worse(&other.walk)
    }

    /// Keeps a front where none that ends with it is as good; those that it betters go.
    fn store(&mut self, front: Front) {
        let Search { fronts, ending, .. } = self;
        let alike = ending[front.walk.at as usize].entry((front.place, front.served)).or_default();
        if alike.iter().any(|number| Self::is_no_worse(&fronts[*number], &front)) {
            return;
        }
        alike.retain(|number| !Self::is_no_worse(&front, &fronts[*number]));
        alike.push(fronts.len());
        fronts.push(front);
    }

    fn extend(&mut self, number: usize) {
        let front = self.fronts[number].clone();
        let servable: Vec<usize> = self.servable(&front, front.walk.at as u32).collect();
        if front.place == 0 && servable.is_empty() {
            return;
        }
        for act in self.acts(&front, &servable) {
            for stay in self.stays(&front, act, &servable) {
                if let Some(child) = self.child(number, act, stay) {
                    self.store(child);
                }
            }
        }
    }

    fn steps(&self, mut number: usize) -> Vec<Step> {
        let mut steps = Vec::new();
        while let Some(step) = self.fronts[number].step {
            steps.push(step);
            number = self.fronts[number].parent;
        }
        steps.reverse();
        steps
    }
}

/// For each set of orders, by bits, the cheapest duty found that serves just these, with its cents.
type Cheapest = Vec<Option<(u64, Vec<Step>)>>;

/// The cheapest duties of a driver, and how many fronts were kept.
fn duties_of(week: &Week, driver: &Driver) -> Result<(Cheapest, usize), String> {
    let walk = Walk::after(&driver.past);
    let first = Front {
        walk, place: 0, served: 0, used: 0, loaded: false, has_spare: false, cents: 0, parent: usize::MAX, step: None,
    };
    let ending = vec![BTreeMap::new(); WEEK as usize + 1];
    let mut search = Search { week, driver, roads: roads_of(week), fronts: vec![first], ending };
    let mut best: Cheapest = vec![None; 1 << week.orders.len()];
    best[0] = Some((0, Vec::new()));
    search.extend(0);
    for minute in 0..=WEEK as usize {
        for number in std::mem::take(&mut search.ending[minute]).into_values().flatten() {
            let front = &search.fronts[number];
            let known = &mut best[front.served as usize];
            if front.place == 0 && known.as_ref().is_none_or(|(cents, _)| front.cents < *cents) {
                *known = Some((front.cents, search.steps(number)));
            }
            search.extend(number);
        }
    }
    for (cents, steps) in best.iter().flatten() {
        let done = judge(week, driver, steps).map_err(|fault| format!("the enumeration found an unlawful duty: {fault}"))?;
        if done.cents != *cents {
            return Err(format!("the enumeration counts {cents} cents, and the duty costs {}", done.cents));
        }
    }
    Ok((best, search.fronts.len()))
}

/// The least cost of a plan that was found, and how many beginnings of duties were kept.
pub fn least(week: &Week) -> Result<(u64, usize), String> {
    let sets = 1_usize << week.orders.len();
    let mut cost_of: Vec<Option<u64>> = vec![None; sets];
    cost_of[0] = Some(0);
    let mut fronts = 0;
    for driver in &week.drivers {
        let (duties, count) = duties_of(week, driver)?;
        fronts += count;
        let mut next = vec![None; sets];
        for served in 0..sets {
            for (more, duty) in duties.iter().enumerate().filter(|(more, _)| served & more == 0) {
                let (Some(before), Some((cents, _))) = (cost_of[served], duty) else { continue };
                let sum = before + cents;
                let known: &mut Option<u64> = &mut next[served | more];
                *known = Some(known.map_or(sum, |cost| cost.min(sum)));
            }
        }
        cost_of = next;
    }
    let out = |served: usize| {
        let left = (0..week.orders.len()).filter(|order| served >> order & 1 == 0);
        left.map(|order| week.orders[order].price).sum::<u64>()
    };
    let costs = (0..sets).filter_map(|served| cost_of[served].map(|cost| cost + out(served)));
    costs.min().map(|cost| (cost, fronts)).ok_or("no plan".to_string())
}
