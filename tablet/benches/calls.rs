//! Calls a second of each proved call, against the plain Rust program that the tests compare it with.

#[allow(dead_code)]
#[path = "../tests/compared/made.rs"]
mod made;
#[allow(dead_code)]
#[path = "../tests/compared/plain.rs"]
mod plain;

use made::Rng;
use plain::Train;
use std::fs;
use std::hint::black_box;
use std::path::Path;
use std::time::{Duration, Instant};

const ROUNDS: usize = 5;
const ROUND: Duration = Duration::from_millis(200);

/// Calls a second, in the best of a few rounds.
fn rate<T>(call: impl Fn() -> T) -> f64 {
    let mut best = 0.0f64;
    for _ in 0..ROUNDS {
        let start = Instant::now();
        let mut calls = 0;
        while start.elapsed() < ROUND {
            for _ in 0..16 {
                black_box(call());
            }
            calls += 16;
        }
        best = best.max(f64::from(calls) / start.elapsed().as_secs_f64());
    }
    best
}

fn compare<T, U>(what: &str, ours: impl Fn() -> T, plain: impl Fn() -> U) {
    let (ours, plain) = (rate(ours), rate(plain));
    println!("{what:<34} {ours:>12.0} {plain:>12.0} {:>8.2}", ours / plain);
}

fn example(name: &str) -> Vec<u8> {
    let folder = Path::new(env!("CARGO_MANIFEST_DIR")).join("../examples");
    fs::read(folder.join(name)).expect("an example")
}

/// The path from a signal that takes each switch normal where it can, back to its last signal that may end it.
fn route(file: &[u8], start: u16) -> Vec<u8> {
    let plan = plain::plan(file).expect("a good file");
    let mut train = Train::start(&plan, start).expect("a signal");
    let (mut path, mut end) = (vec![start], 1);
    while let Some(&step) = train.ahead().first().filter(|step| !train.has_passed(step.0)) {
        path.push(step.0);
        train.go(step);
        if train.may_end() {
            end = path.len();
        }
    }
    made::row(&path[..end])
}

/// The longest of the routes from each signal that is among the first components.
fn longest_route(file: &[u8], signals: u16) -> Vec<u8> {
    (0..signals)
        .map(|c| route(file, 4 * c))
        .max_by_key(Vec::len)
        .expect("a signal")
}

fn main() {
    let line = made::line(&mut Rng::new(1), 512).bytes;
    let signals = |file: &[u8]| u16::from_le_bytes([file[0], file[1]]);
    println!(
        "{:<34} {:>12} {:>12} {:>8}",
        "calls a second", "proved", "plain Rust", "times"
    );
    let plans = [
        ("4 components", example("one_switch.plan")),
        ("14 components", example("fourteen.plan")),
        ("512 in a line", line),
    ];
    for (name, file) in &plans {
        let row = longest_route(file, signals(file));
        assert!(tablet::judge(file, &row).is_ok(), "{name}: not a route");
        let entries = (row.len() - 2) / 2;
        compare(
            &format!("look, {name}"),
            || tablet::look(black_box(file)),
            || plain::look(black_box(file)),
        );
        compare(
            &format!("judge, {name}, {entries} entries"),
            || tablet::judge(black_box(file), black_box(&row)),
            || plain::judge(black_box(file), black_box(&row)),
        );
        compare(
            &format!("shared, twice {entries} entries"),
            || tablet::shared(black_box(&row), black_box(&row)),
            || plain::shared(black_box(&row), black_box(&row)),
        );
    }
    let most = example("most_sections.plan");
    compare(
        "look, 512 point sections",
        || tablet::look(black_box(&most)),
        || plain::look(black_box(&most)),
    );
}
