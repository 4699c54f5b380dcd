//! What was driven: the check text read and judged, and check texts by a seed whose lines end near a limit.

use crate::rules;
use crate::small_weeks::{easy_history, owing_history, tight_history, Draws};
use crate::weeks::{read_driven, Kind, Mark, Past, Stint};
use std::fmt::Write;

/// One line a driver, as the desk's `check` prints them.
pub fn verdicts(text: &str) -> Result<String, String> {
    let mut answer = String::new();
    for (name, past, line) in read_driven(text)? {
        match rules::fault(&past, &line) {
            None => writeln!(answer, "{name} lawful").unwrap(),
            Some((minute, rule)) => writeln!(answer, "{name} broken H{rule} {minute}").unwrap(),
        }
    }
    Ok(answer)
}

fn is_off(line: &[Stint]) -> bool { line.last().is_some_and(|stint| stint.mark == Mark::Off) }

/// What a line is mostly made of.
#[derive(Clone, Copy)]
enum Style { Mixed, Driving, ShortDays }

const STYLES: [Style; 3] = [Style::Mixed, Style::Driving, Style::ShortDays];

fn proposed_off(draws: &mut Draws, style: Style) -> Stint {
    let kinds = match style {
        Style::Mixed => [Kind::Plain, Kind::Plain, Kind::Plain, Kind::Daily, Kind::Daily, Kind::Weekly],
        Style::Driving => [Kind::Plain, Kind::Plain, Kind::Plain, Kind::Plain, Kind::Daily, Kind::Daily],
        Style::ShortDays => [Kind::Daily, Kind::Daily, Kind::Daily, Kind::Daily, Kind::Daily, Kind::Plain],
    };
    let kind = kinds[draws.below(kinds.len())];
    let minutes = match (kind, style) {
        (Kind::Plain, Style::Driving) => draws.one_of(&[30, 45, 45, 45]),
        (Kind::Plain, _) => draws.one_of(&[14, 15, 15, 29, 30, 30, 44, 45, 45, 179, 180]),
        (Kind::Daily, Style::ShortDays) => draws.one_of(&[660, 1_380, 1_380, 1_380, 1_919]),
        (Kind::Daily, _) => draws.one_of(&[539, 540, 540, 540, 659, 660, 660, 1_380, 1_859, 1_860]),
        (Kind::Weekly, _) => draws.one_of(&[1_439, 1_440, 1_440, 2_699, 2_700, 2_700, 3_960]),
    };
    Stint { mark: Mark::Off, kind, minutes }
}

/// The next stint: a rest, a break, or a block on duty of many lengths, most of them longer than the rules let it be.
fn proposed(draws: &mut Draws, style: Style, line: &[Stint]) -> Stint {
    if !is_off(line) && (draws.below(2) == 0 || matches!(style, Style::Driving | Style::ShortDays)) {
        return proposed_off(draws, style);
    }
    let mark = match style {
        Style::Mixed => [Mark::Drive, Mark::Drive, Mark::Drive, Mark::Work, Mark::Work, Mark::Ready][draws.below(6)],
        Style::Driving => Mark::Drive,
        Style::ShortDays => [Mark::Work, Mark::Ready][draws.below(2)],
    };
    let minutes = match style {
        Style::Mixed => draws.one_of(&[1, 30, 60, 180, 270, 271, 361, 600, 901]),
        Style::Driving => 270,
        Style::ShortDays => draws.one_of(&[30, 60, 901]),
    };
    Stint { mark, kind: Kind::Plain, minutes }
}

/// A line that goes on for as long as it may: a block on duty that breaks a rule is cut before the fault, but for the last one,
/// which is left as it is or cut just after it.
fn line_near_limits(draws: &mut Draws, style: Style, past: &Past) -> Vec<Stint> {
    let kind = [Kind::Weekly, Kind::Weekly, Kind::Daily][draws.below(3)];
    let mut line = vec![Stint { mark: Mark::Off, kind, minutes: draws.one_of(&[0, 360, 1_080]) }];
    for _ in 0..8 + draws.below(50) {
        let before: u32 = line.iter().map(|stint| stint.minutes).sum();
        let next = proposed(draws, style, &line);
        line.push(next);
        if before + next.minutes > 10_080 {
            line.pop();
            break;
        }
        if let Some((minute, _)) = rules::fault(past, &line) {
            let lawful = (minute as u32).saturating_sub(before);
            if draws.below(12) == 0 {
                if draws.below(2) == 0 {
                    line.last_mut().unwrap().minutes = lawful + 1;
                }
                break;
            }
            line.pop();
            if lawful > 0 {
                line.push(Stint { minutes: lawful, ..next });
            } else if line.len() == 1 && line[0].minutes < 4_000 {
                line[0].minutes += 540;
            } else if is_off(&line) && line.len() > 1 {
                line.pop();
            }
        }
    }
    line
}

fn word_of(stint: &Stint) -> &'static str {
    match (stint.mark, stint.kind) {
        (Mark::Drive, _) => "DRIVE",
        (Mark::Work, _) => "WORK",
        (Mark::Ready, _) => "READY",
        (Mark::Off, Kind::Plain) => "OFF",
        (Mark::Off, Kind::Daily) => "DAILY",
        (Mark::Off, Kind::Weekly) => "WEEKLY",
    }
}

/// The check text of a seed, of six drivers.
pub fn driven_text(seed: u64) -> Result<String, String> {
    let mut draws = Draws { state: seed };
    let mut text = "week,2026-03-02,15,3000,15\n".to_string();
    for number in 1..=6 {
        let name = format!("D{number}");
        let mut rows = String::new();
        let style = STYLES[draws.below(STYLES.len())];
        match (draws.below(3), style) {
            (_, Style::ShortDays) => owing_history(&mut draws, &mut rows, &name),
            (0, _) => tight_history(&mut draws, &mut rows, &name),
            _ => easy_history(&mut draws, &mut rows, &name),
        }
        let read = read_driven(&format!("week,2026-03-02,15,3000,15\n{rows}did,{name},OFF,0\n"))?;
        for stint in line_near_limits(&mut draws, style, &read[0].1) {
            writeln!(rows, "did,{name},{},{}", word_of(&stint), stint.minutes).unwrap();
        }
        text.push_str(&rows);
    }
    Ok(text)
}
