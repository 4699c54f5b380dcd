mod plain_hours;
use plain_hours::*;

fn stint(mark: Mark, minutes: u32, kind: Kind) -> Stint { Stint { mark, minutes, kind } }

fn added(verdict: Verdict) -> u32 {
    match verdict {
        Verdict::Lawful => 7,
        Verdict::Broken(broken) => broken.minute ^ broken.rule as u32,
    }
}

fn main() {
    let stints = vec![stint(Mark::Drive, 270, Kind::Plain), stint(Mark::Off, 45, Kind::Plain), stint(Mark::Drive, 200, Kind::Plain), stint(Mark::Off, 660, Kind::Plain), stint(Mark::Work, 300, Kind::Plain), stint(Mark::Off, 45, Kind::Plain), stint(Mark::Drive, 240, Kind::Plain), stint(Mark::Off, 700, Kind::Plain), stint(Mark::Drive, 100, Kind::Plain)];
    let history = History { prev_weekly: 2700, stints, open_off: 2400, prev_drive: 810, work16: [2400; 16], owed: 0, due: 0 };
    let driving = vec![stint(Mark::Off, 360, Kind::Weekly), stint(Mark::Drive, 270, Kind::Plain), stint(Mark::Off, 45, Kind::Plain), stint(Mark::Drive, 270, Kind::Plain), stint(Mark::Off, 45, Kind::Plain), stint(Mark::Drive, 60, Kind::Plain), stint(Mark::Off, 660, Kind::Daily), stint(Mark::Drive, 270, Kind::Plain), stint(Mark::Off, 45, Kind::Plain), stint(Mark::Drive, 270, Kind::Plain), stint(Mark::Off, 45, Kind::Plain), stint(Mark::Drive, 60, Kind::Plain), stint(Mark::Off, 660, Kind::Daily), stint(Mark::Drive, 270, Kind::Plain), stint(Mark::Off, 45, Kind::Plain), stint(Mark::Drive, 270, Kind::Plain), stint(Mark::Off, 660, Kind::Daily), stint(Mark::Drive, 270, Kind::Plain), stint(Mark::Off, 45, Kind::Plain), stint(Mark::Drive, 270, Kind::Plain), stint(Mark::Off, 660, Kind::Daily), stint(Mark::Drive, 270, Kind::Plain), stint(Mark::Off, 45, Kind::Plain), stint(Mark::Drive, 270, Kind::Plain), stint(Mark::Off, 660, Kind::Daily), stint(Mark::Drive, 270, Kind::Plain), stint(Mark::Off, 45, Kind::Plain), stint(Mark::Drive, 270, Kind::Plain), stint(Mark::Off, 660, Kind::Daily), stint(Mark::Drive, 1, Kind::Plain)];
    let working = vec![stint(Mark::Off, 360, Kind::Weekly), stint(Mark::Work, 360, Kind::Plain), stint(Mark::Off, 45, Kind::Plain), stint(Mark::Work, 180, Kind::Plain), stint(Mark::Off, 660, Kind::Daily), stint(Mark::Work, 360, Kind::Plain), stint(Mark::Off, 45, Kind::Plain), stint(Mark::Work, 180, Kind::Plain), stint(Mark::Off, 660, Kind::Daily), stint(Mark::Work, 360, Kind::Plain), stint(Mark::Off, 45, Kind::Plain), stint(Mark::Work, 180, Kind::Plain), stint(Mark::Off, 660, Kind::Daily), stint(Mark::Work, 360, Kind::Plain), stint(Mark::Off, 45, Kind::Plain), stint(Mark::Work, 180, Kind::Plain), stint(Mark::Off, 660, Kind::Daily), stint(Mark::Work, 360, Kind::Plain), stint(Mark::Off, 45, Kind::Plain), stint(Mark::Work, 180, Kind::Plain), stint(Mark::Off, 660, Kind::Daily), stint(Mark::Work, 180, Kind::Plain)];
    let mixed = vec![stint(Mark::Off, 405, Kind::Weekly), stint(Mark::Work, 15, Kind::Plain), stint(Mark::Drive, 60, Kind::Plain), stint(Mark::Work, 30, Kind::Plain), stint(Mark::Off, 30, Kind::Plain), stint(Mark::Drive, 60, Kind::Plain), stint(Mark::Ready, 20, Kind::Plain), stint(Mark::Work, 30, Kind::Plain), stint(Mark::Drive, 120, Kind::Plain), stint(Mark::Off, 45, Kind::Plain), stint(Mark::Drive, 60, Kind::Plain), stint(Mark::Off, 660, Kind::Daily), stint(Mark::Work, 15, Kind::Plain), stint(Mark::Drive, 60, Kind::Plain), stint(Mark::Work, 30, Kind::Plain), stint(Mark::Off, 30, Kind::Plain), stint(Mark::Drive, 60, Kind::Plain), stint(Mark::Ready, 20, Kind::Plain), stint(Mark::Work, 30, Kind::Plain), stint(Mark::Drive, 120, Kind::Plain), stint(Mark::Off, 45, Kind::Plain), stint(Mark::Drive, 60, Kind::Plain), stint(Mark::Off, 660, Kind::Daily), stint(Mark::Work, 15, Kind::Plain), stint(Mark::Drive, 60, Kind::Plain), stint(Mark::Work, 30, Kind::Plain), stint(Mark::Off, 30, Kind::Plain), stint(Mark::Drive, 60, Kind::Plain), stint(Mark::Ready, 20, Kind::Plain), stint(Mark::Work, 30, Kind::Plain), stint(Mark::Drive, 120, Kind::Plain), stint(Mark::Off, 45, Kind::Plain), stint(Mark::Drive, 60, Kind::Plain), stint(Mark::Off, 660, Kind::Daily), stint(Mark::Work, 15, Kind::Plain), stint(Mark::Drive, 60, Kind::Plain), stint(Mark::Work, 30, Kind::Plain), stint(Mark::Off, 30, Kind::Plain), stint(Mark::Drive, 60, Kind::Plain), stint(Mark::Ready, 20, Kind::Plain), stint(Mark::Work, 30, Kind::Plain), stint(Mark::Drive, 120, Kind::Plain), stint(Mark::Off, 45, Kind::Plain), stint(Mark::Drive, 60, Kind::Plain), stint(Mark::Off, 660, Kind::Daily), stint(Mark::Work, 15, Kind::Plain), stint(Mark::Drive, 60, Kind::Plain), stint(Mark::Work, 30, Kind::Plain), stint(Mark::Off, 30, Kind::Plain), stint(Mark::Drive, 60, Kind::Plain), stint(Mark::Ready, 20, Kind::Plain), stint(Mark::Work, 30, Kind::Plain), stint(Mark::Drive, 120, Kind::Plain), stint(Mark::Off, 45, Kind::Plain), stint(Mark::Drive, 60, Kind::Plain), stint(Mark::Off, 660, Kind::Daily), stint(Mark::Work, 15, Kind::Plain), stint(Mark::Drive, 60, Kind::Plain), stint(Mark::Work, 30, Kind::Plain), stint(Mark::Off, 30, Kind::Plain), stint(Mark::Drive, 60, Kind::Plain), stint(Mark::Ready, 20, Kind::Plain), stint(Mark::Work, 30, Kind::Plain), stint(Mark::Drive, 120, Kind::Plain), stint(Mark::Off, 45, Kind::Plain), stint(Mark::Drive, 60, Kind::Plain), stint(Mark::Off, 660, Kind::Daily)];
    let late = vec![stint(Mark::Off, 360, Kind::Weekly), stint(Mark::Work, 60, Kind::Plain), stint(Mark::Off, 540, Kind::Daily), stint(Mark::Work, 60, Kind::Plain), stint(Mark::Off, 540, Kind::Daily), stint(Mark::Work, 60, Kind::Plain), stint(Mark::Off, 540, Kind::Daily), stint(Mark::Ready, 300, Kind::Plain), stint(Mark::Off, 179, Kind::Plain), stint(Mark::Ready, 421, Kind::Plain), stint(Mark::Off, 540, Kind::Daily), stint(Mark::Work, 1, Kind::Plain)];
    let mut seed: u32 = 1;
    let mut sum: u32 = 0;
    for _ in 0..10_000 {
        seed = seed.wrapping_mul(1664525).wrapping_add(1013904223);
        let verdict = match (seed >> 16) % 4 {
            0 => judge(&history, &driving),
            1 => judge(&history, &working),
            2 => judge(&history, &mixed),
            _ => judge(&history, &late),
        };
        sum = sum.wrapping_mul(31).wrapping_add(added(verdict));
    }
    println!("{sum}");
}
