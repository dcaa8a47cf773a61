//! Prints the times of the library beside other readers, on the same bytes. Called by bench/run.

mod sides;
mod texts;

use sides::{race, room, Other, Runner, Side, Text};
use std::cmp::Reverse;
use std::collections::BTreeMap;
use std::process::Command;
use std::rc::Rc;
use texts::{Kind, DENSE, MANY, PRETTY, WORST};

/// The greatest length of a text.
const MOST: usize = 65_535;
/// Where callgrind's files are written.
const COUNTS: &str = "target/bench/callgrind";

fn main() {
    let mut sides = vec![
        Rc::new(Side::Judge),
        Rc::new(Side::Lay),
        Rc::new(Side::Reader),
    ];
    let mut words = Vec::new();
    for word in std::env::args().skip(1) {
        match word.split_once('=') {
            Some((name, path)) => sides.push(Rc::new(Side::Other(Other::open(name, path)))),
            None => words.push(word),
        }
    }
    match words.iter().map(String::as_str).collect::<Vec<_>>()[..] {
        ["times", seconds] => times(&sides, seconds.parse().expect("seconds")),
        ["instructions"] => instructions(&sides),
        ["count"] => {
            let plain = |kind: &Kind, limit| Text::new((kind.make)(limit));
            counted(&sides, plain)
                .iter_mut()
                .for_each(|(_, runner)| runner.count());
        }
        _ => panic!("see bench/run"),
    }
}

/// A text of a kind, held to the rule that it is said to break.
fn checked(kind: &Kind, limit: usize) -> Rc<Text> {
    let text = Text::new((kind.make)(limit));
    for side in [Side::Judge, Side::Lay] {
        let rule = Runner::new(&Rc::new(side), &text).check();
        assert_eq!(rule, kind.rule, "{}: the rule that refuses it", kind.name);
    }
    text
}

fn main_texts(text: fn(&Kind, usize) -> Rc<Text>) -> Vec<(String, Rc<Text>)> {
    let named = |kind: &Kind, limit| (kind.name.to_string(), text(kind, limit));
    vec![
        named(&DENSE, 64_000),
        named(&MANY, MOST),
        named(&PRETTY, MOST),
        ("2,000-byte text (dense)".to_string(), text(&DENSE, 2_000)),
    ]
}

fn micros(runner: &Runner) -> f64 {
    runner.best.as_secs_f64() * 1e6
}

fn row(cells: &[String]) {
    println!("| {} |", cells.join(" | "));
}

fn head(cells: &[&str]) {
    row(&cells
        .iter()
        .map(|cell| cell.to_string())
        .collect::<Vec<_>>());
    println!("|{}", "---|".repeat(cells.len()));
}

fn times(sides: &[Rc<Side>], seconds: f64) {
    println!("Nothing is cleared between calls: the room of lay holds its last sheet, and lay clears it itself.\n");
    let firsts = main_table(sides, seconds);
    ratio_table(&firsts);
    goal_table(&firsts);
    worst_table(seconds);
    growth_table(seconds);
}

/// Times in microseconds; gives each text's name and runners.
fn main_table(sides: &[Rc<Side>], seconds: f64) -> Vec<(String, Vec<Runner>)> {
    let mut columns = vec!["text", "bytes", "objects", "room"];
    columns.extend(sides.iter().map(|side| side.name()));
    println!("Best times in microseconds:\n");
    head(&columns);
    let mut all = Vec::new();
    for (name, text) in main_texts(checked) {
        let mut runners: Vec<Runner> = sides.iter().map(|side| Runner::new(side, &text)).collect();
        for runner in &mut runners {
            assert_eq!(
                runner.check(),
                0,
                "{name} is refused by {}",
                runner.side.name()
            );
        }
        race(&mut runners, seconds);
        let objects = kebrawish::judge(text.bytes())
            .expect("an accepted text")
            .objects;
        let mut cells = vec![name.clone()];
        cells.extend([text.bytes().len(), objects, room(&text)].map(|n| n.to_string()));
        cells.extend(
            runners
                .iter()
                .map(|runner| format!("{:.1}", micros(runner))),
        );
        row(&cells);
        all.push((name, runners));
    }
    println!();
    all
}

/// How many times as long judge and lay take as the others.
fn ratio_table(all: &[(String, Vec<Runner>)]) {
    let others: Vec<String> = all[0].1[2..]
        .iter()
        .map(|over| format!("/ {}", over.side.name()))
        .collect();
    let mut columns = vec!["text", "side"];
    columns.extend(others.iter().map(String::as_str));
    println!("Ratios of these times:\n");
    head(&columns);
    for (name, runners) in all {
        for runner in &runners[..2] {
            let mut cells = vec![name.clone(), runner.side.name().to_string()];
            cells.extend(
                runners[2..]
                    .iter()
                    .map(|over| format!("{:.2}", micros(runner) / micros(over))),
            );
            row(&cells);
        }
    }
    println!();
}

/// What is to be reached on the first two texts, and on the short one.
fn goal_table(all: &[(String, Vec<Runner>)]) {
    println!("To reach:\n");
    head(&["text", "what", "measured", "to reach", ""]);
    let line = |name: &str, what: String, measured: f64, goal: f64, unit: &str| {
        let verdict = if measured <= goal { "met" } else { "missed" };
        let number = |n: f64| format!("{n:.2}{unit}");
        row(&[
            name.to_string(),
            what,
            number(measured),
            number(goal),
            verdict.to_string(),
        ]);
    };
    for (name, runners) in &all[..2] {
        for (side, over, goal) in [
            (0, "serde_json", 1.0),
            (1, "serde_json", 1.3),
            (0, "simdjson", 4.0),
        ] {
            if let Some(other) = runners.iter().find(|runner| runner.side.name() == over) {
                let what = format!("{} / {over}", runners[side].side.name());
                line(name, what, micros(&runners[side]) / micros(other), goal, "");
            }
        }
    }
    for side in 0..2 {
        let (dense, small) = (&all[0].1[side], &all[3].1[side]);
        let share = small.text.bytes().len() as f64 / dense.text.bytes().len() as f64;
        let what = format!("{}, over its share of the dense quarter", small.side.name());
        line(
            &all[3].0,
            what,
            micros(small) - share * micros(dense),
            10.0,
            " µs",
        );
    }
    println!();
}

/// Judge and lay on a kind of text, and on a dense quarter of the same length.
fn beside_dense(kind: &Kind, limit: usize, seconds: f64) -> Vec<Runner> {
    let worst = checked(kind, limit);
    let dense = checked(&DENSE, worst.bytes().len());
    let runner = |side: Side, text| Runner::new(&Rc::new(side), text);
    let mut runners = vec![
        runner(Side::Judge, &worst),
        runner(Side::Judge, &dense),
        runner(Side::Lay, &worst),
        runner(Side::Lay, &dense),
    ];
    race(&mut runners, seconds);
    runners
}

fn worst_table(seconds: f64) {
    println!(
        "Worst cases, with the ratio to a dense quarter of the same length (to reach: 8.0):\n"
    );
    head(&[
        "text",
        "bytes",
        "answer",
        "judge, µs",
        "ratio",
        "lay, µs",
        "ratio",
        "",
    ]);
    for kind in &WORST {
        let runners = beside_dense(kind, MOST, seconds);
        let ratio = |k: usize| micros(&runners[k]) / micros(&runners[k + 1]);
        row(&[
            kind.name.to_string(),
            runners[0].text.bytes().len().to_string(),
            if kind.rule == 0 {
                "accepted".to_string()
            } else {
                format!("refused {}", kind.rule)
            },
            format!("{:.1}", micros(&runners[0])),
            format!("{:.2}", ratio(0)),
            format!("{:.1}", micros(&runners[2])),
            format!("{:.2}", ratio(2)),
            if ratio(0) <= 8.0 && ratio(2) <= 8.0 {
                "met"
            } else {
                "missed"
            }
            .to_string(),
        ]);
    }
    println!();
}

fn growth_table(seconds: f64) {
    println!("Growth: judge in microseconds, and how many times the length and the time grow from the first to the last:\n");
    head(&["text", "4 kB", "16 kB", "64 kB", "length", "time"]);
    for kind in [&DENSE, &MANY].into_iter().chain(&WORST) {
        let sizes = [4_000, 16_000, 64_000].map(|limit| {
            let mut runners = [Runner::new(&Rc::new(Side::Judge), &checked(kind, limit))];
            race(&mut runners, seconds / 4.0);
            (runners[0].text.bytes().len() as f64, micros(&runners[0]))
        });
        let mut cells = vec![kind.name.to_string()];
        cells.extend(sizes.map(|(_, time)| format!("{time:.1}")));
        cells.push(format!("{:.1}", sizes[2].0 / sizes[0].0));
        cells.push(format!("{:.1}", sizes[2].1 / sizes[0].1));
        row(&cells);
    }
    println!();
}

/// The calls whose instructions are counted: every side on the first texts, judge and lay on the worst.
fn counted(sides: &[Rc<Side>], text: fn(&Kind, usize) -> Rc<Text>) -> Vec<(String, Runner)> {
    let mut runs = Vec::new();
    for (name, text) in main_texts(text) {
        runs.extend(
            sides
                .iter()
                .map(|side| (name.clone(), Runner::new(side, &text))),
        );
    }
    for kind in &WORST {
        let text = text(kind, MOST);
        let run = |side| (kind.name.to_string(), Runner::new(side, &text));
        runs.extend(sides[..2].iter().map(run));
    }
    runs
}

/// Counts instructions by callgrind, which runs this program again and writes a file for each call.
fn instructions(sides: &[Rc<Side>]) {
    let _ = std::fs::remove_dir_all(COUNTS);
    std::fs::create_dir_all(COUNTS).expect("a folder for the counts");
    let output = Command::new("valgrind")
        .args([
            "--tool=callgrind",
            "--toggle-collect=bench_counted",
            "--dump-after=bench_counted",
            "--compress-strings=no",
        ])
        .arg(format!("--callgrind-out-file={COUNTS}/out"))
        .arg(std::env::current_exe().expect("this program"))
        .args(
            std::env::args()
                .skip(1)
                .filter(|word| word != "instructions"),
        )
        .arg("count")
        .output()
        .expect("valgrind");
    assert!(
        output.status.success(),
        "{}",
        String::from_utf8_lossy(&output.stderr)
    );
    println!(
        "Instructions of one call, and the functions of judge and lay with at least a hundredth of them ({COUNTS} has callgrind's files):\n"
    );
    head(&[
        "text",
        "side",
        "instructions",
        "per byte",
        "in which functions",
    ]);
    for (place, (name, runner)) in counted(sides, checked).iter().enumerate() {
        let path = format!("{COUNTS}/out.{}", place + 1);
        let functions = profile(&std::fs::read_to_string(path).expect("a file of callgrind"));
        let total: u64 = functions.iter().map(|(_, count)| count).sum();
        let share = |count: u64| 100.0 * count as f64 / total as f64;
        let own = matches!(*runner.side, Side::Judge | Side::Lay);
        let named: Vec<String> = functions
            .iter()
            .take(10)
            .filter(|(_, count)| own && share(*count) >= 1.0)
            .map(|(name, count)| format!("{name} {:.0}%", share(*count)))
            .collect();
        row(&[
            name.clone(),
            runner.side.name().to_string(),
            total.to_string(),
            format!("{:.1}", total as f64 / runner.text.bytes().len() as f64),
            named.join(", "),
        ]);
    }
}

/// The instructions of each function itself in a file of callgrind, the most first.
fn profile(file: &str) -> Vec<(String, u64)> {
    let mut counts = BTreeMap::new();
    let mut function = String::new();
    let mut lines = file.lines();
    while let Some(line) = lines.next() {
        if let Some(name) = line.strip_prefix("fn=") {
            // A function that calls itself is one function.
            function = name.split('\'').next().unwrap_or(name).to_string();
        } else if line.starts_with("calls=") {
            // What the called function took stands in the next line.
            lines.next();
        } else if line.starts_with(|c: char| c.is_ascii_digit() || "+-*".contains(c)) {
            let count = line
                .split(' ')
                .nth(1)
                .and_then(|word| word.parse::<u64>().ok());
            *counts.entry(function.clone()).or_default() += count.unwrap_or(0);
        }
    }
    let mut sorted: Vec<(String, u64)> = counts.into_iter().collect();
    sorted.sort_by_key(|(_, count)| Reverse(*count));
    sorted
}
