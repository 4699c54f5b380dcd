//! Small weeks by a seed: at most two drivers, three places and three orders. The draws are those of a linear congruential
//! generator: x begins as the seed, and a draw of m sets x to x * 6364136223846793005 + 1442695040888963407 modulo 2^64 and gives
//! (x / 2^33) mod m, rounded down.
//!
//! The seed modulo nine is the week's shape, so that each is met often; all else is drawn.

use std::fmt::Write;

const MONDAY: &str = "2026-03-02";

pub struct Draws { pub state: u64 }

impl Draws {
    pub fn below(&mut self, count: usize) -> usize {
        self.state = self.state.wrapping_mul(6_364_136_223_846_793_005).wrapping_add(1_442_695_040_888_963_407);
        (self.state >> 33) as usize % count
    }

    pub fn one_of(&mut self, values: &[u32]) -> u32 { values[self.below(values.len())] }
}

/// What a week of this kind is about.
#[derive(Clone, Copy, PartialEq, Eq)]
enum Shape { Breaks, TwoTrips, Night, Edges, ReducedRests, LittleTime, Fees, Alike, Corners }

const SHAPES: [Shape; 9] = [
    Shape::Breaks, Shape::TwoTrips, Shape::Night, Shape::Edges, Shape::ReducedRests, Shape::LittleTime, Shape::Fees, Shape::Alike,
    Shape::Corners,
];

/// The stamp of a minute from Monday, which may lie up to four weeks before it: 2026-02-01 is 29 days before, a February of 28.
fn stamp(minute: i64) -> String {
    let (day, rest) = (minute.div_euclid(1440), minute.rem_euclid(1440));
    let date = if day >= -1 { format!("2026-03-{:02}", day + 2) } else { format!("2026-02-{:02}", day + 30) };
    format!("{date}T{:02}:{:02}", rest / 60, rest % 60)
}

/// A driver's history rows: past rows that reach to Monday, after a rest of these minutes.
fn history(text: &mut String, name: &str, rest: u32, past: &[(&str, u32)], last: u32, sixteen: &[u32]) {
    let total: u32 = past.iter().map(|(_, minutes)| minutes).sum();
    writeln!(text, "rest,{name},{},{rest}", stamp(-(total as i64))).unwrap();
    let weeks: Vec<String> = sixteen.iter().map(u32::to_string).collect();
    writeln!(text, "worked,{name},{last},{}", weeks.join(",")).unwrap();
    for (mark, minutes) in past {
        writeln!(text, "past,{name},{mark},{minutes}").unwrap();
    }
}

/// Histories that leave little time, each for a rule or two.
pub fn tight_history(draws: &mut Draws, text: &mut String, name: &str) {
    let zeros = [0; 16];
    let tail = draws.one_of(&[300, 420, 540, 659, 660, 900]);
    match draws.below(8) {
        0 => history(text, name, 2_700, &[("OFF", 2_880)], 5_400 - draws.one_of(&[120, 240, 480, 539, 541]), &zeros),
        1 => history(text, name, 2_700, &[("OFF", 2_880)], 3_360, &[3_060 - draws.one_of(&[0, 10, 15, 20]); 16]),
        2 => {
            let past = [
                ("WORK", 60), ("DAILY", 540), ("WORK", 60), ("DAILY", 540), ("WORK", 60), ("DAILY", 540), ("DRIVE", 240),
                ("OFF", 45), ("DRIVE", 200), ("OFF", tail),
            ];
            history(text, name, 2_700, &past, 3_360, &zeros);
        }
        3 => owing_history(draws, text, name),
        4 => history(text, name, 1_440, &[("WORK", 30), ("OFF", 2_850)], 0, &zeros),
        5 => {
            let past = [
                ("WORK", 60), ("DAILY", 1_380), ("WORK", 60), ("DAILY", 1_380), ("WORK", 60), ("DAILY", 1_380), ("WORK", 60),
                ("DAILY", 1_380), ("WORK", 60), ("DAILY", 1_380), ("WORK", 60), ("OFF", draws.one_of(&[600, 1_380, 1_440])),
            ];
            history(text, name, 2_700, &past, 0, &zeros);
        }
        6 => history(text, name, 2_700, &[("WORK", 100), ("DRIVE", 200), ("OFF", 15), ("DRIVE", 60)], 600, &zeros),
        _ => history(text, name, 1_800, &[("DRIVE", 270), ("OFF", 30), ("WORK", 200), ("OFF", tail)], 3_360, &zeros),
    }
}

/// A weekly rest below 2,700 minutes two weeks before the last one: what it lacks is due by the end of the planned week.
pub fn owing_history(draws: &mut Draws, text: &mut String, name: &str) {
    let rest = draws.one_of(&[1_440, 1_500, 2_400, 2_699]);
    history(text, name, rest, &[("READY", 18_720), ("OFF", 2_880)], 0, &[0; 16]);
}

pub fn easy_history(draws: &mut Draws, text: &mut String, name: &str) {
    match draws.below(3) {
        0 => history(text, name, 2_700, &[], 0, &[0; 16]),
        1 => history(text, name, 2_700, &[("OFF", 2_880)], 0, &[0; 16]),
        _ => history(text, name, 2_400, &[("WORK", 240), ("OFF", 1_000)], 2_400, &[2_400; 16]),
    }
}

fn roads(draws: &mut Draws, shape: Shape, text: &mut String) -> (u32, u32) {
    let (near, far) = match shape {
        Shape::Night => (270, draws.one_of(&[240, 270])),
        Shape::Breaks => (draws.one_of(&[120, 150, 180, 240]), draws.one_of(&[120, 150, 165])),
        _ => (draws.one_of(&[45, 60, 90, 120, 185, 270]), draws.one_of(&[30, 60, 100, 150])),
    };
    let cents = if shape == Shape::Corners && draws.below(3) == 0 { 0 } else { 20 };
    for (from, to, minutes) in [("HUB", "P", near), ("P", "HUB", near), ("P", "F", far), ("F", "P", far)] {
        writeln!(text, "leg,{from},{to},{minutes},{}", cents * (minutes + 5)).unwrap();
    }
    if draws.below(3) == 0 {
        let minutes = (near + far - 15).min(270);
        writeln!(text, "leg,F,HUB,{minutes},{}", 25 * minutes).unwrap();
    }
    (near, far)
}

fn drivers(draws: &mut Draws, shape: Shape, text: &mut String) {
    let is_alike = shape == Shape::Alike || draws.below(4) == 0;
    let count = if is_alike { 2 } else { 1 + draws.below(2) };
    let before = draws.state;
    for number in 1..=count {
        if is_alike {
            draws.state = before;
        }
        let name = format!("D{number}");
        let capacity = if shape == Shape::TwoTrips { 12_000 } else { draws.one_of(&[12_000, 18_000, 24_000]) };
        let fee = if shape == Shape::Fees { draws.one_of(&[5_000, 20_000, 40_000]) } else { draws.one_of(&[0, 0, 2_000]) };
        writeln!(text, "driver,{name},{capacity},{fee}").unwrap();
        if shape == Shape::LittleTime || draws.below(4) == 0 {
            tight_history(draws, text, &name);
        } else {
            easy_history(draws, text, &name);
        }
    }
}

/// The window of an order: at the edge of an arrival, a short night after the order before, just in time to be home on Sunday
/// night, or some hours of a day.
fn window(draws: &mut Draws, shape: Shape, number: usize, load: u32, near: u32) -> (u32, u32) {
    match shape {
        Shape::Edges => {
            let pause = draws.one_of(&[0, 0, 15, 30, 45]);
            let opens = load + near + pause + 60 * draws.one_of(&[0, 1, 6, 24]) - draws.one_of(&[0, 0, 1]);
            (opens, opens + draws.one_of(&[0, 0, 1, 15]))
        }
        Shape::ReducedRests => {
            let opens = 300 + number as u32 * draws.one_of(&[840, 900, 1_020, 1_260]);
            (opens, opens + draws.one_of(&[60, 120, 180]))
        }
        Shape::Corners if draws.below(2) == 0 => {
            let closes = 10_080 - near - draws.one_of(&[14, 15, 15, 16, 45, 60]);
            (closes - draws.one_of(&[0, 0, 30, 240]), closes)
        }
        _ => {
            let opens = 1_440 * draws.one_of(&[0, 0, 1, 2]) + draws.one_of(&[0, 240, 360, 480, 600]);
            (opens, opens + draws.one_of(&[30, 60, 240, 480]))
        }
    }
}

fn orders(draws: &mut Draws, shape: Shape, text: &mut String, load: u32, near: u32) {
    let count = if shape == Shape::ReducedRests { 3 } else { 1 + draws.below(3) };
    for number in 0..count {
        let place = match draws.below(8) {
            0 => "HUB",
            1..=3 => "F",
            _ => "P",
        };
        let place = if shape == Shape::Breaks || shape == Shape::Night { "F" } else { place };
        let (opens, closes) = window(draws, shape, number, load, near);
        let service = draws.one_of(&[15, 30, 60, 240]);
        let kg = if shape == Shape::Corners { draws.one_of(&[0, 12_001, 12_000]) } else { draws.one_of(&[6_000, 12_000, 12_000]) };
        let least = if matches!(shape, Shape::Breaks | Shape::Night | Shape::Fees) { 15_000 } else { 5_000 };
        let price = if shape == Shape::Corners && draws.below(4) == 0 { 0 } else { least + 1_000 * draws.below(30) };
        let (opens, closes) = (stamp(opens as i64), stamp(closes as i64));
        writeln!(text, "order,{},{place},{opens},{closes},{service},{kg},{price}", ["A", "B", "C"][number]).unwrap();
    }
}

/// The small week of a seed.
pub fn small_week(seed: u64) -> String {
    let shape = SHAPES[seed as usize % SHAPES.len()];
    let mut draws = Draws { state: seed };
    let grid = if shape == Shape::Night { 60 } else { draws.one_of(&[30, 60, 60, 60]) };
    let (load, night) = (draws.one_of(&[15, 30]), draws.one_of(&[1_000, 3_000]));
    let mut text = format!("week,{MONDAY},{load},{night},{grid}\nplace,HUB\nplace,P\nplace,F\n");
    let (near, _) = roads(&mut draws, shape, &mut text);
    drivers(&mut draws, shape, &mut text);
    orders(&mut draws, shape, &mut text, load, near);
    text
}
