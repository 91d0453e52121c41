//! The proved library against the second encoder and decoder: the same calls on both sides, case by case.
//!
//!     compare quick [SEED]           some minutes' worth, as the gate runs it
//!     compare long [SEED]            over a million damaged frames and words, with a progress line
//!     compare GROUP SEED NUMBER      one case again
//!
//! A case is given by its group, the seed and its number, and by nothing else. The first difference ends the run, with the words that run its case again.

mod calls;
mod fields;
mod frames;
mod g709;
mod guarded;
mod lengths;
mod logging;
mod words;

use cases::random::Random;
use cases::refusals::{Entry, Written, ENTRIES};
use std::collections::BTreeMap;
use std::panic::{catch_unwind, AssertUnwindSafe};
use std::process::ExitCode;
use std::sync::atomic::{AtomicU64, Ordering::Relaxed};
use std::sync::Mutex;
use std::time::{Duration, Instant};

/// What came of a case on which both sides agree: the answer, 0 or the refusal's number, and whether it was a frame or a code word with wrong bits.
pub struct Done {
    pub answer: u8,
    pub damaged: bool,
}

type Case = Box<dyn Fn(&mut Random, u64) -> Result<Done, String> + Sync>;

struct Group {
    name: String,
    quick: u64,
    long: u64,
    case: Case,
}

fn group(name: &str, quick: u64, long: u64, case: impl Fn(&mut Random, u64) -> Result<Done, String> + Sync + 'static) -> Group {
    Group { name: name.into(), quick, long, case: Box::new(case) }
}

/// Lengths from 0 to 20,000, every one of them in both sets: of what an entry reads, and of the space for what it writes.
const LENGTHS: u64 = 20_001;

fn sweeps(entry: &'static Entry) -> Vec<Group> {
    let (read, space) = (format!("{}-{}-length", entry.name, entry.input), format!("{}-out-length", entry.name));
    let mut groups = vec![group(&read, LENGTHS, LENGTHS, |random, n| lengths::of_input(entry, random, n as usize))];
    if entry.written != Written::Nothing {
        groups.push(group(&space, LENGTHS, LENGTHS, |random, n| lengths::of_space(entry, random, n as usize)));
    }
    groups
}

fn groups() -> Vec<Group> {
    let mut groups = vec![
        group("products", fields::ELEMENTS, fields::ELEMENTS, fields::products),
        group("encode", 2_000, 24_000, frames::encode),
        group("check-and-extract", 2_400, 28_800, frames::check_and_extract),
        group("scattered", 1_200, 14_400, frames::scattered),
        group("burst", 1_600, 19_200, frames::burst),
        group("each-word", 1_100, 13_200, frames::each_word),
        group("mixed", 800, 9_600, frames::mixed),
        group("few-words", 1_600, 19_200, frames::few_words),
        group("outer-limit", 1_600, 19_200, frames::outer_limit),
        group("parity-places", 1_200, 14_400, frames::parity_places),
        group("last-word", 1_600, 19_200, frames::last_word),
        group("no-frame", 400, 4_800, frames::no_frame),
        group("exchanged", 800, 9_600, frames::exchanged),
        group("padding", 600, 7_200, frames::padding),
        group("between-frames", 800, 9_600, frames::between_frames),
        group("towards-code-words", 800, 9_600, frames::towards_code_words),
        group("omitted-places", 800, 9_600, frames::omitted_places),
        group("encode-outer", 20_000, 200_000, words::encode_outer),
        group("correct-outer", 44_000, 440_000, words::correct_outer),
        group("between-outer", 20_000, 200_000, words::between_outer),
        group("any-outer", 20_000, 200_000, words::any_outer),
        group("omitted-outer", 20_000, 200_000, words::omitted_outer),
        group("encode-inner", 20_000, 200_000, words::encode_inner),
        group("correct-inner", 44_000, 440_000, words::correct_inner),
        group("between-inner", 20_000, 200_000, words::between_inner),
        group("omitted-inner", 20_000, 200_000, words::omitted_inner),
        group("any-inner", 20_000, 200_000, words::any_inner),
        group("worst-lists", 100_000, 1_000_000, logging::worst_lists),
    ];
    groups.extend(g709_groups());
    groups.extend(ENTRIES.iter().flat_map(sweeps));
    groups.push(group("lengths-together", 26_000, 260_000, lengths::together));
    groups
}

fn g709_groups() -> Vec<Group> {
    vec![
        group("g709-encode", 200, 2_400, g709::encode),
        group("g709-check-and-extract", 240, 2_880, g709::check_and_extract),
        group("g709-scattered", 200, 2_400, g709::scattered),
        group("g709-each-word", 220, 2_640, g709::each_word),
        group("g709-mixed", 200, 2_400, g709::mixed),
        group("g709-one-word", 256, 3_072, g709::one_word),
        group("g709-burst", 240, 2_880, g709::burst),
        group("g709-between", 200, 2_400, g709::between),
        group("g709-no-frame", 120, 1_440, g709::no_frame),
        group("single-row", 880, 10_560, g709::single_row),
    ]
}

/// One case; a panic of either side counts as a difference.
fn run_case(group: &Group, seed: u64, number: u64) -> Result<Done, String> {
    let mut random = Random::of_case(seed, &group.name, number);
    catch_unwind(AssertUnwindSafe(|| (group.case)(&mut random, number))).unwrap_or_else(|_| Err("a panic".into()))
}

/// How many cases had each answer, and how many were damaged frames or words.
#[derive(Default)]
struct Outcomes {
    answers: BTreeMap<u8, u64>,
    damaged: u64,
}

impl Outcomes {
    fn add(&mut self, answer: u8, cases: u64) {
        *self.answers.entry(answer).or_default() += cases;
    }
}

/// The cases of a group, shared out among the processors; the first difference, by number.
fn run_group(group: &Group, seed: u64, cases: u64, progress: bool) -> Result<Outcomes, (u64, String)> {
    let next = AtomicU64::new(0);
    let outcomes = Mutex::new(Outcomes::default());
    let difference: Mutex<Option<(u64, String)>> = Mutex::new(None);
    let last_told = Mutex::new(Instant::now());
    let work = || {
        let mut own = Outcomes::default();
        loop {
            let number = next.fetch_add(1, Relaxed);
            if number >= cases {
                break;
            }
            match run_case(group, seed, number) {
                Ok(done) => {
                    own.add(done.answer, 1);
                    own.damaged += done.damaged as u64;
                }
                Err(text) => {
                    next.store(cases, Relaxed);
                    keep_first(&mut difference.lock().unwrap(), number, text);
                }
            }
            if progress {
                tell_progress(group, number, cases, &last_told);
            }
        }
        let mut all = outcomes.lock().unwrap();
        own.answers.iter().for_each(|(&answer, &cases)| all.add(answer, cases));
        all.damaged += own.damaged;
    };
    let workers = std::thread::available_parallelism().map_or(1, |n| n.get());
    std::thread::scope(|scope| (0..workers).for_each(|_| drop(scope.spawn(work))));
    match difference.into_inner().unwrap() {
        Some(found) => Err(found),
        None => Ok(outcomes.into_inner().unwrap()),
    }
}

/// The difference with the lowest number is kept.
fn keep_first(first: &mut Option<(u64, String)>, number: u64, text: String) {
    if first.as_ref().map_or(true, |(n, _)| number < *n) {
        *first = Some((number, text));
    }
}

/// A line every ten seconds.
fn tell_progress(group: &Group, number: u64, cases: u64, last_told: &Mutex<Instant>) {
    if let Ok(mut last) = last_told.try_lock() {
        if last.elapsed() > Duration::from_secs(10) {
            *last = Instant::now();
            eprintln!("    {}: {} of {cases}", group.name, number + 1);
        }
    }
}

fn tell_difference(group: &str, seed: u64, number: u64, text: &str) -> ExitCode {
    println!("compare: DIFFERENCE in {group}, seed {seed}, case {number}: {text}");
    println!("compare: run it again with: bash tests/compare/run {group} {seed} {number}");
    ExitCode::FAILURE
}

fn tell_group(group: &Group, outcomes: &Outcomes, took: Duration) {
    let mut answers = vec![format!("{} accepted", outcomes.answers.get(&0).unwrap_or(&0))];
    answers.extend(outcomes.answers.iter().filter(|(&number, _)| number != 0).map(|(number, cases)| format!("{cases} refused by {number}")));
    println!("{:30} {:5.1} s: {}", group.name, took.as_secs_f64(), answers.join(", "));
}

fn run_set(name: &str, seed: u64, cases: fn(&Group) -> u64) -> ExitCode {
    let (start, mut all, mut damaged) = (Instant::now(), 0, 0);
    for group in &groups() {
        let since = Instant::now();
        match run_group(group, seed, cases(group), name == "long") {
            Err((number, text)) => return tell_difference(&group.name, seed, number, &text),
            Ok(outcomes) => {
                all += cases(group);
                damaged += outcomes.damaged;
                tell_group(group, &outcomes, since.elapsed());
            }
        }
    }
    let took = start.elapsed().as_secs();
    println!("compare: {name} set, seed {seed}: {all} cases, {damaged} of them damaged frames or words, no difference ({took} s)");
    ExitCode::SUCCESS
}

fn run_again(name: &str, seed: u64, number: u64) -> ExitCode {
    let Some(group) = groups().into_iter().find(|g| g.name == name) else { return usage() };
    match run_case(&group, seed, number) {
        Err(text) => tell_difference(name, seed, number, &text),
        Ok(done) => {
            println!("compare: {name}, seed {seed}, case {number}: both sides answer {}", done.answer);
            ExitCode::SUCCESS
        }
    }
}

fn usage() -> ExitCode {
    eprintln!("usage: compare quick [SEED] | compare long [SEED] | compare GROUP SEED NUMBER");
    ExitCode::from(2)
}

const SEED: u64 = 20_261_116;

fn main() -> ExitCode {
    let words: Vec<String> = std::env::args().skip(1).collect();
    let words: Vec<&str> = words.iter().map(String::as_str).collect();
    let number = |text: &str| text.parse::<u64>().ok();
    match words[..] {
        ["quick"] => run_set("quick", SEED, |g| g.quick),
        ["long"] => run_set("long", SEED, |g| g.long),
        [name @ ("quick" | "long"), seed] => match number(seed) {
            Some(seed) => run_set(name, seed, if name == "quick" { |g| g.quick } else { |g| g.long }),
            None => usage(),
        },
        [name, seed, case] => match (number(seed), number(case)) {
            (Some(seed), Some(case)) => run_again(name, seed, case),
            _ => usage(),
        },
        _ => usage(),
    }
}
