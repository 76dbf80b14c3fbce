//! The shipped examples: each file is looked over, and each route of its text is judged.

use super::{compare_judge, compare_look, compare_shared, made};
use std::fs;
use std::path::{Path, PathBuf};

/// Some texts have tens of thousands of routes.
const LINES: usize = 500;

fn examples() -> Vec<PathBuf> {
    let folder = Path::new(env!("CARGO_MANIFEST_DIR")).join("../examples");
    let mut plans: Vec<PathBuf> = fs::read_dir(folder)
        .expect("the folder of examples")
        .map(|entry| entry.expect("an example").path())
        .filter(|path| path.extension().is_some_and(|e| e == "plan"))
        .collect();
    plans.sort();
    plans
}

/// The row of a printed line: component numbers, with `N` or `R` behind a switch.
fn row(line: &str) -> Vec<u8> {
    let entry = |word: &str| {
        let number = |digits: &str| 4 * digits.parse::<u16>().expect("a component");
        match (word.strip_suffix('N'), word.strip_suffix('R')) {
            (Some(switch), _) => number(switch) + 1,
            (_, Some(switch)) => number(switch) + 2,
            _ => number(word),
        }
    };
    made::row(&line.split(' ').map(entry).collect::<Vec<u16>>())
}

#[test]
fn every_example_is_told_as_its_text_says() {
    let plans = examples();
    assert!(!plans.is_empty(), "no examples");
    for plan in plans {
        let file = fs::read(&plan).expect("a plan");
        let text = fs::read_to_string(plan.with_extension("txt")).expect("its text");
        let said = match compare_look(&file) {
            Ok(()) => String::new(),
            Err(fault) => format!("refused {} {}\n", fault.number, fault.place),
        };
        let name = plan.display();
        if !said.is_empty() || text.starts_with("refused") {
            assert_eq!(said, text, "{name}");
            continue;
        }
        let (routes, _) = text.trim_end().rsplit_once('\n').unwrap_or_default();
        for line in routes.lines().take(LINES) {
            assert_eq!(compare_judge(&file, &row(line)), Ok(()), "{name}: {line}");
        }
    }
}

#[test]
fn rows_of_one_switch() {
    let folder = Path::new(env!("CARGO_MANIFEST_DIR")).join("../examples");
    let file = fs::read(folder.join("one_switch.plan")).expect("a plan");
    let judged = |line| compare_judge(&file, &row(line)).map_err(|fault| (fault.number, fault.place));
    assert_eq!(judged("0 3N 1"), Ok(()));
    assert_eq!(judged("0 3R 2"), Ok(()));
    assert_eq!(judged("0 3N 2"), Err((15, 2)));
    assert_eq!(judged("0 3N"), Err((15, 2)));
    assert_eq!(judged("3N 1"), Err((15, 0)));
    assert_eq!(judged("0"), Err((14, 0)));
    assert_eq!(compare_shared(&row("0 3N 1"), &row("0 3R 2")), Ok(2));
}
