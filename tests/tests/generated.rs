//! Generated texts, on the reader and, with the features `library` and `lay`, on the library.
//!
//! `KEBRAWISH_CASES` is the count of generated texts (20,000 if it is not set) and
//! `KEBRAWISH_SEED` the first seed.

use std::collections::BTreeMap;
use std::env;
use std::thread;
use std::time::Instant;

use kebrawish_tests::compare::{self, shown, LARGE_ROOM};
use kebrawish_tests::generate::{self, Case, Coverage, Expected, Random};
use kebrawish_tests::{lay, read, sheet, Verdict};

/// The stack of a thread that calls the library: little more than the C header states.
const STACK: usize = 1_460 << 10;

/// How many texts the gate tries at least, and how often each rule is then the answer.
const ENOUGH: u64 = 20_000;
const LEAST: u64 = 50;

fn setting(name: &str, default: u64) -> u64 {
    match env::var(name) {
        Ok(value) => value
            .parse()
            .unwrap_or_else(|_| panic!("{name} is no number")),
        Err(_) => default,
    }
}

fn cases() -> u64 {
    setting("KEBRAWISH_CASES", ENOUGH)
}

fn first_seed() -> u64 {
    setting("KEBRAWISH_SEED", 1)
}

/// How often each rule was the answer, 0 for acceptance, and each role the target of a rule.
#[derive(Default)]
struct Counts {
    answers: BTreeMap<u8, u64>,
    targets: BTreeMap<(u8, String), u64>,
    coverage: Coverage,
}

#[test]
fn generated_texts() {
    let (first, count) = (first_seed(), cases());
    let start = Instant::now();
    let mut counts = Counts::default();
    for seed in first..first + count {
        let what = format!("seed {seed}");
        let case = generate::case(seed);
        let answers = compare::all(&case.text, &what);
        check_expected(&case, answers.judge, &what);
        counts.add(&case, answers.judge.rule());
        *counts.answers.entry(18).or_default() += answers.short_rooms;
    }
    let seconds = start.elapsed().as_secs_f64();
    println!("{count} texts from seed {first} in {seconds:.1} seconds");
    counts.print();
    if count >= ENOUGH {
        counts.check();
    }
}

/// What the generator knows of the answer, and the model that the sheet gives back.
fn check_expected(case: &Case, verdict: Verdict, what: &str) {
    let text = || shown(&case.text);
    match &case.expected {
        Expected::Model(model) => {
            assert_eq!(read(&case.text).as_ref(), Ok(model), "{what}\n{}", text());
            let objects = model.objects.len();
            let length = 0;
            let expected = Verdict::Accepted { length, objects };
            assert_eq!(verdict, expected, "{what}\n{}", text());
            let (laid, bytes) = compare::lay(&case.text, LARGE_ROOM, 0xA5, what);
            let Verdict::Accepted { length, .. } = laid else {
                panic!("{what}: {laid:?}\n{}", text());
            };
            let decoded = sheet::decode(&bytes[..length]);
            assert_eq!(decoded.as_ref(), Ok(model), "{what}\n{}", text());
        }
        Expected::Refusal(refusal) => {
            assert_eq!(verdict, (*refusal).into(), "{what}\n{}", text());
        }
        Expected::Open => {}
    }
}

impl Counts {
    fn add(&mut self, case: &Case, rule: u8) {
        *self.answers.entry(rule).or_default() += 1;
        if let Some(role) = case.damaged {
            let target = (rule, format!("{:?}", role.kind()));
            *self.targets.entry(target).or_default() += 1;
        }
        if let Expected::Model(model) = &case.expected {
            self.coverage.add(&case.text, model);
        }
    }

    fn print(&self) {
        println!("answers by rule, 0 for acceptance: {:?}", self.answers);
        for line in self.coverage.lines() {
            println!("{line}");
        }
        for rule in 7..=17 {
            let targets = self.targets.iter().filter(|((of, _), _)| *of == rule);
            let targets: Vec<String> = targets
                .map(|((_, role), count)| format!("{role} {count}"))
                .collect();
            println!("rule {rule} was broken at: {}", targets.join(", "));
        }
    }

    fn check(&self) {
        let last = if cfg!(feature = "lay") { 18 } else { 17 };
        for rule in 0..=last {
            let count = self.answers.get(&rule).copied().unwrap_or(0);
            assert!(count >= LEAST, "rule {rule} is the answer {count} times");
            for role in generate::targets(rule) {
                let target = (rule, format!("{role:?}"));
                let found = self.targets.contains_key(&target);
                assert!(found, "rule {rule} is not broken at {role:?}");
            }
        }
        // The types of docs/RULES.md, the pairs that it permits, and 18 surface types and `+`.
        let kinds = [
            ("object types", 33, LEAST),
            ("geometry types", 7, LEAST),
            ("object and geometry types", 188, 1),
            ("surface types", 19, LEAST),
            ("links", 5, LEAST),
            ("IDs", 4, LEAST),
            ("semantics", 4, LEAST),
            ("spellings", 5, LEAST),
        ];
        for (heading, names, least) in kinds {
            let found = self.coverage.least(heading);
            assert!(found.0 == names && found.1 >= least, "{heading}: {found:?}");
        }
    }
}

/// The sheet of an accepted text.
fn laid(text: &[u8], what: &str) -> Option<Vec<u8>> {
    compare::all(text, what);
    let (verdict, mut bytes) = compare::lay(text, LARGE_ROOM, 0xA5, what);
    let Verdict::Accepted { length, .. } = verdict else {
        return None;
    };
    bytes.truncate(length);
    Some(bytes)
}

/// Two texts of one model give one sheet; two models give sheets of which neither begins
/// the other.
#[test]
fn pairs() {
    let (first, count) = (first_seed(), cases() / 20);
    for seed in first..first + count {
        let what = format!("pair of seed {seed}");
        let mut random = Random::new(seed);
        let model = generate::model(&mut random);
        let plain = generate::write_plain(&model, &mut random);
        let sheet = laid(&plain, &what).expect("an accepted text");
        let alike = generate::write(&model, &mut random);
        match laid(&alike, &what) {
            Some(other) if sheet == other => {}
            // The spelling may be too long.
            None if lay(&alike, 0).0.rule() == 1 => {}
            _ => panic!(
                "{what}: alike texts, two sheets\n{}\n{}",
                shown(&plain),
                shown(&alike)
            ),
        }
        let changed = generate::changed(&model, &mut random);
        let changed = generate::write_plain(&changed, &mut random);
        let other = laid(&changed, &what).expect("an accepted text");
        assert!(
            !sheet.starts_with(&other) && !other.starts_with(&sheet),
            "{what}: one sheet begins the other\n{}\n{}",
            shown(&plain),
            shown(&changed)
        );
    }
    println!("{count} pairs of alike texts and as many with one change, from seed {first}");
}

/// Every prefix of a few texts of some kilobytes.
#[test]
fn truncations() {
    let mut random = Random::new(first_seed());
    let mut texts = 0;
    let mut count = 0;
    while texts < 4 {
        let text = generate::accepted(&mut random).text;
        if !(2_000..5_000).contains(&text.len()) {
            continue;
        }
        texts += 1;
        for length in 0..=text.len() {
            let what = format!("seed {}, text {texts} cut at {length}", first_seed());
            compare::all(&text[..length], &what);
            count += 1;
        }
    }
    println!(
        "{count} prefixes of {texts} texts from seed {}",
        first_seed()
    );
}

/// Every text of up to four bytes over JSON's own bytes.
#[test]
fn short_texts() {
    let alphabet = b"{}[]\":,\\u01-+.eE trnslfa/\n\xC3\xA9";
    let texts = generate::short_texts(alphabet, 4);
    for text in &texts {
        compare::judge(text, "a short text");
    }
    println!("{} texts over {} bytes", texts.len(), alphabet.len());
}

/// The deepest and largest texts, each in a thread with a small stack.
#[test]
fn large_texts_on_a_small_stack() {
    let texts = generate::large_texts();
    let count = texts.len();
    for large in texts {
        let label = large.label;
        let start = Instant::now();
        let call = move || {
            let answers = compare::all(&large.text, large.label);
            assert_eq!(answers.judge.rule(), large.rule, "{}", large.label);
            compare::lay(&large.text, 65_536, 0xA5, large.label);
        };
        let thread = thread::Builder::new().stack_size(STACK).spawn(call);
        let end = thread.expect("a thread").join();
        end.unwrap_or_else(|_| panic!("the thread of: {label}"));
        println!("{label}: {:.2} seconds", start.elapsed().as_secs_f64());
    }
    println!("{count} large texts");
}
