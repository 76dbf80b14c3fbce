//! The rules again, in plain Rust and in another shape than the library's, to compare the library with.
//!
//! A file is decoded whole, by a cursor, into lists; a row is judged by running a train over them, which remembers the
//! port by which it entered.

use std::collections::HashSet;

/// Layer (1 file, 2 plan, 3 box), number and place.
#[derive(Clone, Copy, Debug, PartialEq, Eq)]
pub struct Fault {
    pub layer: u32,
    pub number: u32,
    pub place: u64,
}

fn fault<T>(layer: u32, number: u32, place: usize) -> Result<T, Fault> {
    Err(Fault {
        layer,
        number,
        place: place as u64,
    })
}

const BLANK: u16 = 65535;

#[derive(Clone, Copy, Debug, PartialEq, Eq)]
pub enum Letter {
    E,
    W,
}

impl Letter {
    fn other(self) -> Letter {
        match self {
            Letter::E => Letter::W,
            Letter::W => Letter::E,
        }
    }
}

#[derive(Clone, Copy, Debug)]
pub enum Sort {
    Signal(Letter),
    Switch { branch: Letter, section: u16 },
    Straight,
}

#[derive(Clone, Debug)]
pub struct Component {
    pub sort: Sort,
    /// What is stored for each port: west, east and, of a switch, branch.
    pub far: Vec<u16>,
    /// Where the record begins.
    at: usize,
}

impl Component {
    pub fn faces(&self, port: usize) -> Letter {
        match (port, self.sort) {
            (0, _) => Letter::W,
            (1, _) => Letter::E,
            (_, Sort::Switch { branch, .. }) => branch,
            _ => unreachable!("only a switch has a branch"),
        }
    }
}

#[derive(Clone, Debug, Default)]
pub struct Plan {
    pub components: Vec<Component>,
    /// Where each point section's record stands, and what it says.
    sections: Vec<(usize, u16)>,
}

struct Cursor<'a> {
    rest: &'a [u8],
    at: usize,
}

impl<'a> Cursor<'a> {
    fn new(bytes: &'a [u8]) -> Cursor<'a> {
        Cursor { rest: bytes, at: 0 }
    }

    fn cut(&mut self, size: usize) -> Result<&'a [u8], Fault> {
        if self.rest.len() < size {
            return fault(1, 1, self.at);
        }
        let (front, rest) = self.rest.split_at(size);
        self.rest = rest;
        self.at += size;
        Ok(front)
    }

    /// A count, of things of which there are some already.
    fn count(&mut self, already: usize) -> Result<usize, Fault> {
        let at = self.at;
        let count = usize::from(word(self.cut(2)?));
        if already + count > 512 {
            return fault(1, 3, at);
        }
        Ok(count)
    }
}

fn word(bytes: &[u8]) -> u16 {
    u16::from_le_bytes([bytes[0], bytes[1]])
}

fn letter(byte: u8, at: usize) -> Result<Letter, Fault> {
    match byte {
        b'E' => Ok(Letter::E),
        b'W' => Ok(Letter::W),
        _ => fault(1, 4, at),
    }
}

/// First reading.
fn decode(bytes: &[u8]) -> Result<Plan, Fault> {
    let mut cursor = Cursor::new(bytes);
    let mut plan = Plan::default();
    for _ in 0..cursor.count(0)? {
        let at = cursor.at;
        let record = cursor.cut(5)?;
        plan.components.push(Component {
            sort: Sort::Signal(letter(record[4], at + 4)?),
            far: record[..4].chunks(2).map(word).collect(),
            at,
        });
    }
    for _ in 0..cursor.count(plan.components.len())? {
        let at = cursor.at;
        let record = cursor.cut(9)?;
        plan.components.push(Component {
            sort: Sort::Switch {
                branch: letter(record[6], at + 6)?,
                section: word(&record[7..]),
            },
            far: record[..6].chunks(2).map(word).collect(),
            at,
        });
    }
    for _ in 0..cursor.count(plan.components.len())? {
        let at = cursor.at;
        plan.components.push(Component {
            sort: Sort::Straight,
            far: cursor.cut(4)?.chunks(2).map(word).collect(),
            at,
        });
    }
    for _ in 0..cursor.count(0)? {
        let at = cursor.at;
        plan.sections.push((at, word(cursor.cut(2)?)));
    }
    if !cursor.rest.is_empty() {
        return fault(1, 2, cursor.at);
    }
    Ok(plan)
}

/// Second reading.
fn check(plan: &Plan) -> Result<(), Fault> {
    let mut tally = vec![0u16; plan.sections.len()];
    for (c, component) in plan.components.iter().enumerate() {
        for (port, &far) in component.far.iter().enumerate() {
            check_port(plan, c, port, far)?;
        }
        if let Sort::Switch { section, .. } = component.sort {
            match tally.get_mut(usize::from(section)) {
                Some(switches) => *switches += 1,
                None => return fault(2, 5, component.at + 7),
            }
        }
    }
    for (&(at, says), &switches) in plan.sections.iter().zip(&tally) {
        if says == 0 || says != switches {
            return fault(2, 10, at);
        }
    }
    Ok(())
}

fn check_port(plan: &Plan, c: usize, port: usize, far: u16) -> Result<(), Fault> {
    let component = &plan.components[c];
    let at = component.at + 2 * port;
    if far == BLANK {
        return match component.sort {
            Sort::Switch { .. } => fault(2, 9, at),
            _ => Ok(()),
        };
    }
    let (other, other_port) = (usize::from(far / 4), usize::from(far % 4));
    let named = plan.components.get(other).filter(|o| other_port < o.far.len());
    let Some(named) = named else {
        return fault(2, 5, at);
    };
    if other == c || named.faces(other_port) == component.faces(port) {
        return fault(2, 6, at);
    }
    if usize::from(named.far[other_port]) != 4 * c + port {
        return fault(2, 7, at);
    }
    Ok(())
}

/// The plan in a file, or the first fault.
pub fn plan(file: &[u8]) -> Result<Plan, Fault> {
    let plan = decode(file)?;
    check(&plan)?;
    Ok(plan)
}

pub fn look(file: &[u8]) -> Result<(), Fault> {
    plan(file).map(|_| ())
}

/// The entries of a row.
pub fn entries(row: &[u8]) -> Result<Vec<u16>, Fault> {
    let no_row = fault(3, 14, 0);
    if row.len() % 2 != 0 || row.is_empty() {
        return no_row;
    }
    let mut words = row.chunks(2).map(word);
    let count = words.next().map(usize::from);
    let entries: Vec<u16> = words.collect();
    let fits = |&e: &u16| e < 2048 && e % 4 != 3;
    if count != Some(entries.len()) || !(2..=512).contains(&entries.len()) || !entries.iter().all(fits) {
        return no_row;
    }
    Ok(entries)
}

/// A train that has left some components behind and is about to leave the last by a port.
pub struct Train<'a> {
    plan: &'a Plan,
    way: Letter,
    seen: HashSet<usize>,
    at: usize,
    exit: usize,
}

impl<'a> Train<'a> {
    /// A train at a signal, travelling its way.
    pub fn start(plan: &'a Plan, entry: u16) -> Option<Train<'a>> {
        let at = usize::from(entry / 4);
        match plan.components.get(at)?.sort {
            Sort::Signal(way) if entry % 4 == 0 => Some(Train {
                plan,
                way,
                seen: HashSet::from([at]),
                at,
                exit: if way == Letter::E { 1 } else { 0 },
            }),
            _ => None,
        }
    }

    /// The entries that come next, each with the port by which it is left then; they may have been passed before.
    pub fn ahead(&self) -> Vec<(u16, usize)> {
        let far = self.plan.components[self.at].far[self.exit];
        let (next, entered) = (far / 4, usize::from(far % 4));
        if far == BLANK {
            return Vec::new();
        }
        let through = if entered == 0 { 1 } else { 0 };
        match self.plan.components[usize::from(next)].sort {
            Sort::Switch { branch, .. } => {
                let root = if branch.other() == Letter::W { 0 } else { 1 };
                if entered == root {
                    vec![(4 * next + 1, 1 - root), (4 * next + 2, 2)]
                } else if entered == 2 {
                    vec![(4 * next + 2, root)]
                } else {
                    vec![(4 * next + 1, root)]
                }
            }
            _ => vec![(4 * next, through)],
        }
    }

    pub fn has_passed(&self, entry: u16) -> bool {
        self.seen.contains(&usize::from(entry / 4))
    }

    pub fn go(&mut self, (entry, exit): (u16, usize)) {
        self.at = usize::from(entry / 4);
        self.exit = exit;
        self.seen.insert(self.at);
    }

    /// Whether it stands at a signal of its way.
    pub fn may_end(&self) -> bool {
        matches!(self.plan.components[self.at].sort, Sort::Signal(way) if way == self.way)
    }
}

pub fn judge(file: &[u8], row: &[u8]) -> Result<(), Fault> {
    judge_on(&plan(file).unwrap_or_default(), row)
}

fn judge_on(plan: &Plan, row: &[u8]) -> Result<(), Fault> {
    let entries = entries(row)?;
    let Some(mut train) = Train::start(plan, entries[0]) else {
        return fault(3, 15, 0);
    };
    for (i, &entry) in entries.iter().enumerate().skip(1) {
        let step = train
            .ahead()
            .into_iter()
            .find(|step| step.0 == entry && !train.has_passed(entry));
        let Some(step) = step else {
            return fault(3, 15, i);
        };
        train.go(step);
    }
    if !train.may_end() {
        return fault(3, 15, entries.len());
    }
    Ok(())
}

pub fn shared(a: &[u8], b: &[u8]) -> Result<u64, Fault> {
    let components = |row| -> Result<HashSet<u16>, Fault> { Ok(entries(row)?.iter().map(|e| e / 4).collect()) };
    let (a, b) = (components(a)?, components(b)?);
    Ok(a.intersection(&b).count() as u64)
}
