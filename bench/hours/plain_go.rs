mod plain_hours;
use plain_hours::*;

fn call(clock: &Clock, first: &Clock, seed: u32) -> (Clock, u32) {
    let stay = stay_of((seed >> 16) % 16);
    let mark = if seed % 2 == 0 { Mark::Drive } else { Mark::Work };
    let minutes = 15 * (1 + (seed >> 24) % 12);
    let end = clock.at.saturating_add(stay.ready).saturating_add(stay.off).saturating_add(minutes);
    if end > 10080 || (clock.off > 0 && stay.ready > 0) || (stay.kind != Kind::Plain && clock.off == 0 && stay.off == 0) {
        return (*first, 7);
    }
    match go(clock, stay, mark, minutes) {
        Ok(next) => (next, next.period),
        Err(broken) => (*first, broken.minute ^ broken.rule as u32),
    }
}

fn main() {
    let history = History { prev_weekly: 2700, stints: vec![], open_off: 2700, prev_drive: 0, work16: [0; 16], owed: 0, due: 0 };
    let first = start(&history);
    let mut clock = first;
    let mut seed = 1;
    let mut sum: u32 = 0;
    for _ in 0..1_100_000 {
        seed = next(seed);
        let (after, adds) = call(&clock, &first, seed);
        clock = after;
        sum = sum.wrapping_mul(31).wrapping_add(adds);
    }
    println!("{sum}");
}
