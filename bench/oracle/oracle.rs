//! Judges what the desk prints without any of the desk's code: `oracle check WEEK REPORT` prints the first fault of a report,
//! `oracle least WEEK` the least cost of a small week's plans and how many beginnings of duties it went through, `oracle make SEED`
//! a small week, `oracle judge TEXT` the verdicts on what was driven, `oracle drive SEED` such a text.

mod driven_lines;
mod duties;
mod least;
mod reports;
mod rules;
mod small_weeks;
mod walk;
mod weeks;

fn read(path: &str) -> Result<String, String> { std::fs::read_to_string(path).map_err(|error| format!("{path}: {error}")) }

fn run(words: &[&str]) -> Result<String, String> {
    match words {
        ["check", week, report] => reports::check(&weeks::read_week(&read(week)?)?, &read(report)?).map(|()| String::new()),
        ["least", week] => least::least(&weeks::read_week(&read(week)?)?).map(|(cost, fronts)| format!("{cost} {fronts}\n")),
        ["make", seed] => seed.parse().map(small_weeks::small_week).map_err(|_| format!("no seed: {seed}")),
        ["judge", text] => driven_lines::verdicts(&read(text)?),
        ["drive", seed] => driven_lines::driven_text(seed.parse().map_err(|_| format!("no seed: {seed}"))?),
        _ => Err("usage: oracle check WEEK REPORT | least WEEK | make SEED | judge TEXT | drive SEED".to_string()),
    }
}

fn main() {
    let words: Vec<String> = std::env::args().skip(1).collect();
    match run(&words.iter().map(String::as_str).collect::<Vec<_>>()) {
        Ok(text) => print!("{text}"),
        Err(fault) => {
            println!("{fault}");
            std::process::exit(1);
        }
    }
}
