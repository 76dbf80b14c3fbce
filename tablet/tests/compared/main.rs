//! Holds the proved calls to a plain Rust program of the same rules, on inputs from fixed seeds and on the examples.
//! A difference fails the test and prints the input.

mod examples;
mod made;
mod plain;

use made::Rng;
use plain::Fault;
use std::collections::BTreeMap;
use tablet::{Layer, Refusal};

const FILES: usize = 600_000;
const ROWS: usize = 600_000;
const PAIRS: usize = 300_000;

fn numbers(refusal: Refusal) -> Fault {
    let layer = match refusal.layer {
        Layer::File => 1,
        Layer::Plan => 2,
        Layer::Box => 3,
    };
    Fault {
        layer,
        number: refusal.number,
        place: refusal.place,
    }
}

fn hex(bytes: &[u8]) -> String {
    bytes.iter().map(|b| format!("{b:02X}")).collect()
}

/// How often each number was answered; 0 stands for accepted.
#[derive(Default)]
struct Tally(BTreeMap<u32, usize>);

impl Tally {
    fn note<T>(&mut self, answer: &Result<T, Fault>) {
        let number = answer.as_ref().err().map_or(0, |fault| fault.number);
        *self.0.entry(number).or_default() += 1;
    }

    /// So that no number is compared on a handful of inputs only.
    fn holds(&self, what: &str, numbers: &[u32], each: usize) {
        println!("{what}: answers by number {:?}", self.0);
        for number in numbers {
            let seen = self.0.get(number).copied().unwrap_or(0);
            assert!(
                seen >= each,
                "{what}: number {number} was answered {seen} times, not {each}"
            );
        }
        assert_eq!(self.0.len(), numbers.len(), "{what}: other numbers were answered");
    }
}

fn compare_look(file: &[u8]) -> Result<(), Fault> {
    let ours = tablet::look(file).map_err(numbers);
    let plain = plain::look(file);
    assert_eq!(
        ours,
        plain,
        "look, library and plain program differ on file {}",
        hex(file)
    );
    ours
}

fn compare_judge(file: &[u8], row: &[u8]) -> Result<(), Fault> {
    let ours = tablet::judge(file, row).map_err(numbers);
    let plain = plain::judge(file, row);
    assert_eq!(
        ours,
        plain,
        "judge, library and plain program differ on file {} row {}",
        hex(file),
        hex(row)
    );
    ours
}

fn compare_shared(a: &[u8], b: &[u8]) -> Result<u64, Fault> {
    let ours = tablet::shared(a, b).map_err(numbers);
    let plain = plain::shared(a, b);
    assert_eq!(
        ours,
        plain,
        "shared, library and plain program differ on rows {} {}",
        hex(a),
        hex(b)
    );
    ours
}

#[test]
fn files() {
    let mut rng = Rng::new(1);
    let mut tally = Tally::default();
    for _ in 0..FILES {
        tally.note(&compare_look(&made::file(&mut rng)));
    }
    tally.holds("files", &[0, 1, 2, 3, 4, 5, 6, 7, 9, 10], 1000);
}

#[test]
fn rows() {
    let mut rng = Rng::new(2);
    let mut tally = Tally::default();
    let (mut longest, mut only_the_end) = (0, 0);
    for turn in 0..ROWS / 20 {
        // now and then a file that may be refused, whose plan is the one without components
        let file = if turn % 10 == 0 {
            made::file(&mut rng)
        } else {
            made::station(&mut rng).bytes
        };
        let plan = plain::plan(&file).unwrap_or_default();
        for _ in 0..20 {
            let row = made::row_for(&plan, &mut rng);
            let judged = compare_judge(&file, &row);
            let entries = row.len().saturating_sub(2) / 2;
            match judged {
                Ok(()) => longest = longest.max(entries),
                Err(fault) if fault.number == 15 && fault.place == entries as u64 => only_the_end += 1,
                Err(_) => {}
            }
            tally.note(&judged);
        }
    }
    tally.holds("rows", &[0, 14, 15], 1000);
    println!("rows: the longest route has {longest} entries; only the end was wrong {only_the_end} times");
    assert!(longest == 512 && only_the_end >= 1000);
}

#[test]
fn pairs() {
    let mut rng = Rng::new(3);
    let mut tally = Tally::default();
    let mut most = 0;
    for _ in 0..PAIRS / 40 {
        let plan = plain::plan(&made::station(&mut rng).bytes).unwrap_or_default();
        for _ in 0..40 {
            let a = made::row_for(&plan, &mut rng);
            let b = made::row_for(&plan, &mut rng);
            let counted = compare_shared(&a, &b);
            most = most.max(counted.unwrap_or(0));
            tally.note(&counted);
        }
    }
    tally.holds("pairs", &[0, 14], 1000);
    println!("pairs: at most {most} components were shared");
    assert!(most == 512);
}
