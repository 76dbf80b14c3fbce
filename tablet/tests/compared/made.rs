//! Inputs from fixed seeds: good plan files, damaged ones, and rows.

use crate::plain::{Plan, Sort, Train};

/// SplitMix64.
pub struct Rng(u64);

impl Rng {
    pub fn new(seed: u64) -> Rng {
        Rng(seed)
    }

    pub fn next(&mut self) -> u64 {
        self.0 = self.0.wrapping_add(0x9E37_79B9_7F4A_7C15);
        let mut z = self.0;
        z = (z ^ (z >> 30)).wrapping_mul(0xBF58_476D_1CE4_E5B9);
        z = (z ^ (z >> 27)).wrapping_mul(0x94D0_49BB_1331_11EB);
        z ^ (z >> 31)
    }

    /// A number below `n`, which is not 0.
    pub fn below(&mut self, n: usize) -> usize {
        (self.next() % n as u64) as usize
    }

    pub fn one_in(&mut self, n: usize) -> bool {
        self.below(n) == 0
    }

    pub fn pick<T: Copy>(&mut self, from: &[T]) -> T {
        from[self.below(from.len())]
    }

    fn bytes(&mut self, n: usize) -> Vec<u8> {
        (0..n).map(|_| self.next() as u8).collect()
    }

    fn shuffle<T>(&mut self, list: &mut [T]) {
        for i in (1..list.len()).rev() {
            list.swap(i, self.below(i + 1));
        }
    }
}

#[derive(Clone, Copy, PartialEq, Eq)]
enum Kind {
    Signal,
    Switch,
    Straight,
}

type Port = (usize, usize);

/// A component as it is drawn, before it has its number.
struct Part {
    kind: Kind,
    east: bool,
    far: [Option<Port>; 3],
}

/// A station as it is drawn.
#[derive(Default)]
struct Drawing {
    parts: Vec<Part>,
}

impl Drawing {
    fn add(&mut self, kind: Kind, east: bool) -> usize {
        self.parts.push(Part {
            kind,
            east,
            far: [None; 3],
        });
        self.parts.len() - 1
    }

    fn ports(&self, part: usize) -> usize {
        if self.parts[part].kind == Kind::Switch {
            3
        } else {
            2
        }
    }

    fn faces_east(&self, (part, port): Port) -> bool {
        port == 1 || (port == 2 && self.parts[part].east)
    }

    fn is_blank(&self, (part, port): Port) -> bool {
        self.parts[part].far[port].is_none()
    }

    fn may_connect(&self, a: Port, b: Port) -> bool {
        a.0 != b.0 && self.faces_east(a) != self.faces_east(b) && self.is_blank(a) && self.is_blank(b)
    }

    fn connect(&mut self, a: Port, b: Port) {
        self.parts[a.0].far[a.1] = Some(b);
        self.parts[b.0].far[b.1] = Some(a);
    }

    fn any_port(&self, rng: &mut Rng) -> Port {
        let part = rng.below(self.parts.len());
        (part, rng.below(self.ports(part)))
    }

    /// Connects a switch's port, with a new component if it must be.
    fn must_connect(&mut self, port: Port, rng: &mut Rng) {
        if !self.is_blank(port) {
            return;
        }
        for _ in 0..12 {
            let other = self.any_port(rng);
            if self.may_connect(port, other) {
                return self.connect(port, other);
            }
        }
        let kind = rng.pick(&[Kind::Signal, Kind::Straight]);
        let new = self.add(kind, rng.one_in(2));
        let side = if self.faces_east(port) { 0 } else { 1 };
        self.connect(port, (new, side));
    }
}

/// A file, and where its fields stand.
#[derive(Clone, Default)]
pub struct Made {
    pub bytes: Vec<u8>,
    counts: Vec<usize>,
    records: Vec<usize>,
    ports: Vec<usize>,
    letters: Vec<usize>,
    switch_sections: Vec<usize>,
    section_records: Vec<usize>,
}

impl Made {
    fn put(&mut self, word: usize) {
        self.bytes.extend_from_slice(&(word as u16).to_le_bytes());
    }

    fn count(&mut self, n: usize) {
        self.counts.push(self.bytes.len());
        self.put(n);
    }

    fn get(&self, at: usize) -> usize {
        usize::from(u16::from_le_bytes([self.bytes[at], self.bytes[at + 1]]))
    }

    fn set(&mut self, at: usize, word: usize) {
        if at + 2 <= self.bytes.len() {
            self.bytes[at..at + 2].copy_from_slice(&(word as u16).to_le_bytes());
        }
    }
}

/// The file of a drawing, with its components in a random order and its switches in random point sections.
fn filed(drawing: &Drawing, rng: &mut Rng) -> Made {
    let mut order: Vec<usize> = Vec::new();
    for kind in [Kind::Signal, Kind::Switch, Kind::Straight] {
        let mut some: Vec<usize> = (0..drawing.parts.len())
            .filter(|&p| drawing.parts[p].kind == kind)
            .collect();
        rng.shuffle(&mut some);
        order.extend(some);
    }
    let mut number = vec![0; order.len()];
    for (c, &part) in order.iter().enumerate() {
        number[part] = c;
    }
    let of = |kind| order.iter().copied().filter(move |&p| drawing.parts[p].kind == kind);
    let switches = of(Kind::Switch).count();
    let sections = if switches == 0 { 0 } else { 1 + rng.below(switches) };
    let mut section_of: Vec<usize> = (0..switches)
        .map(|i| if i < sections { i } else { rng.below(sections) })
        .collect();
    rng.shuffle(&mut section_of);

    let mut made = Made::default();
    for kind in [Kind::Signal, Kind::Switch, Kind::Straight] {
        made.count(of(kind).count());
        for (i, part) in of(kind).enumerate() {
            made.records.push(made.bytes.len());
            for port in 0..drawing.ports(part) {
                made.ports.push(made.bytes.len());
                let far = drawing.parts[part].far[port];
                made.put(far.map_or(65535, |(p, q)| 4 * number[p] + q));
            }
            if kind != Kind::Straight {
                made.letters.push(made.bytes.len());
                made.bytes.push(if drawing.parts[part].east { b'E' } else { b'W' });
            }
            if kind == Kind::Switch {
                made.switch_sections.push(made.bytes.len());
                made.put(section_of[i]);
            }
        }
    }
    made.count(sections);
    for k in 0..sections {
        made.section_records.push(made.bytes.len());
        made.put(section_of.iter().filter(|&&s| s == k).count());
    }
    made
}

/// A good file of at most about so many components, connected at random.
fn tangle(rng: &mut Rng, most: usize) -> Made {
    let mut drawing = Drawing::default();
    for _ in 0..rng.below(most / 6 + 2) {
        drawing.add(Kind::Switch, rng.one_in(2));
    }
    for _ in 0..rng.below(most / 4 + 2) {
        drawing.add(Kind::Signal, rng.one_in(2));
    }
    for _ in 0..rng.below(most / 4 + 2) {
        drawing.add(Kind::Straight, false);
    }
    for part in 0..drawing.parts.len() {
        if drawing.parts[part].kind == Kind::Switch {
            for port in 0..3 {
                drawing.must_connect((part, port), rng);
            }
        }
    }
    let tries = rng.pick(&[0, 1, 3, 10]) * drawing.parts.len();
    for _ in 0..tries {
        let (a, b) = (drawing.any_port(rng), drawing.any_port(rng));
        if drawing.may_connect(a, b) {
            drawing.connect(a, b);
        }
    }
    if drawing.parts.len() > 512 {
        return tangle(rng, most / 2);
    }
    filed(&drawing, rng)
}

/// A good file of so many components, two at least, one behind the other from west to east, some switches in pairs.
pub fn line(rng: &mut Rng, components: usize) -> Made {
    let mut drawing = Drawing::default();
    let east = rng.one_in(2);
    let mut last = drawing.add(Kind::Signal, east);
    while drawing.parts.len() + 1 < components {
        let room = components - 1 - drawing.parts.len();
        if room >= 2 && rng.one_in(3) {
            let fork = drawing.add(Kind::Switch, true);
            let join = drawing.add(Kind::Switch, false);
            drawing.connect((last, 1), (fork, 0));
            let crossed = rng.one_in(2);
            drawing.connect((fork, 1), (join, if crossed { 2 } else { 0 }));
            drawing.connect((fork, 2), (join, if crossed { 0 } else { 2 }));
            last = join;
        } else {
            let kind = rng.pick(&[Kind::Signal, Kind::Straight]);
            let next = drawing.add(kind, rng.one_in(2));
            drawing.connect((last, 1), (next, 0));
            last = next;
        }
    }
    let end = drawing.add(Kind::Signal, east);
    drawing.connect((last, 1), (end, 0));
    filed(&drawing, rng)
}

/// A good file: mostly of some dozens of components, some of hundreds.
pub fn station(rng: &mut Rng) -> Made {
    match rng.below(40) {
        0 => tangle(rng, 500),
        1 => line(rng, 512),
        2 => tangle(rng, 200),
        3..=9 => {
            let n = 2 + rng.below(60);
            line(rng, n)
        }
        10..=24 => tangle(rng, 12),
        _ => tangle(rng, 50),
    }
}

/// A file of the right form whose fields are all random.
fn scrambled(rng: &mut Rng) -> Vec<u8> {
    let counts = [rng.below(4), rng.below(3), rng.below(4), rng.below(3)];
    let all = counts[0] + counts[1] + counts[2];
    let mut made = Made::default();
    for (sort, &n) in counts.iter().enumerate() {
        made.count(n);
        for _ in 0..n {
            for _ in 0..[2, 3, 2, 0][sort] {
                let far = if rng.one_in(2) { 65535 } else { rng.below(4 * all + 1) };
                made.put(far);
            }
            if sort < 2 {
                let letter = rng.pick(b"EEEEEEEEEEEEWWWWWWWWWWWWe");
                made.bytes.push(letter);
            }
            if sort == 1 || sort == 3 {
                let section = rng.below(3);
                made.put(section);
            }
        }
    }
    if rng.one_in(20) {
        made.bytes.pop();
    }
    made.bytes
}

/// The number that a field could hold by mistake.
fn mistaken(was: usize, rng: &mut Rng) -> usize {
    match rng.below(8) {
        0 => was.wrapping_add(1),
        1 => was.wrapping_sub(1),
        2 => was ^ (1 << rng.below(16)),
        3 => rng.pick(&[0, 1, 2, 3, 511, 512, 513, 2047, 2048, 65535]),
        4 => rng.next() as usize,
        5 => was ^ 1,
        6 => was + 4,
        _ => rng.below(2048),
    }
}

fn mistake(made: &mut Made, at: &[usize], rng: &mut Rng) {
    if !at.is_empty() {
        let at = rng.pick(at);
        if at + 2 <= made.bytes.len() {
            made.set(at, mistaken(made.get(at), rng));
        }
    }
}

fn any_byte(made: &mut Made, rng: &mut Rng) {
    if !made.bytes.is_empty() {
        let at = rng.below(made.bytes.len());
        made.bytes[at] = match rng.below(3) {
            0 => rng.next() as u8,
            1 => rng.pick(&[0, 1, 2, 69, 87, 254, 255]),
            _ => made.bytes[at] ^ (1 << rng.below(8)),
        };
    }
}

/// Blanks both ends of a connection, so that the rest of the file still agrees.
fn disconnect(made: &mut Made, rng: &mut Rng) {
    if made.ports.is_empty() {
        return;
    }
    let at = rng.pick(&made.ports);
    if at + 2 > made.bytes.len() {
        return;
    }
    let code = made.get(at);
    if let Some(&record) = made.records.get(code / 4) {
        made.set(record + 2 * (code % 4), 65535);
        made.set(at, 65535);
    }
}

/// One mistake in a file.
fn damage(made: &mut Made, rng: &mut Rng) {
    match rng.below(14) {
        0 | 1 => any_byte(made, rng),
        2 => (0..2 + rng.below(7)).for_each(|_| any_byte(made, rng)),
        3 => made.bytes.truncate(rng.below(made.bytes.len() + 1)),
        4 => {
            let more = 1 + rng.below(20);
            made.bytes.extend(rng.bytes(more));
        }
        5 | 6 => mistake(made, &made.ports.clone(), rng),
        7 if made.ports.len() > 1 => {
            let (a, b) = (rng.pick(&made.ports), rng.pick(&made.ports));
            if a.max(b) + 2 <= made.bytes.len() {
                let (x, y) = (made.get(a), made.get(b));
                made.set(a, y);
                made.set(b, x);
            }
        }
        8 if !made.letters.is_empty() => {
            let at = rng.pick(&made.letters);
            let letter = rng.pick(&[69, 87, 69, 87, 68, 70, 86, 88, 101]);
            if let Some(byte) = made.bytes.get_mut(at) {
                *byte = letter;
            }
        }
        9 => mistake(made, &made.counts.clone(), rng),
        10 => mistake(made, &made.section_records.clone(), rng),
        11 => mistake(made, &made.switch_sections.clone(), rng),
        _ => disconnect(made, rng),
    }
}

/// Any file: good, damaged, or noise.
pub fn file(rng: &mut Rng) -> Vec<u8> {
    match rng.below(20) {
        0 => {
            let n = rng.below(40);
            rng.bytes(n)
        }
        1 if rng.one_in(4) => {
            let n = rng.below(7000);
            rng.bytes(n)
        }
        2..=5 => scrambled(rng),
        6..=8 => station(rng).bytes,
        _ => {
            let mut made = station(rng);
            for _ in 0..1 + rng.below(3) / 2 {
                damage(&mut made, rng);
            }
            made.bytes
        }
    }
}

pub fn row(entries: &[u16]) -> Vec<u8> {
    let count = entries.len() as u16;
    [count]
        .iter()
        .chain(entries)
        .flat_map(|word| word.to_le_bytes())
        .collect()
}

/// A path of the plan, gone on with at random; it may be a route.
fn path(plan: &Plan, rng: &mut Rng) -> Vec<u16> {
    let signals: Vec<u16> = (0..plan.components.len())
        .filter(|&c| matches!(plan.components[c].sort, Sort::Signal(_)))
        .map(|c| 4 * c as u16)
        .collect();
    if signals.is_empty() {
        return Vec::new();
    }
    // the longest of a few, since many paths from a random signal are short
    let mut longest = Vec::new();
    for _ in 0..1 + rng.below(3) {
        let patience = rng.pick(&[2, 8, 1000]);
        let mut path = vec![rng.pick(&signals)];
        let Some(mut train) = Train::start(plan, path[0]) else {
            return path;
        };
        loop {
            let ahead = train.ahead();
            if ahead.is_empty() || (path.len() > 1 && train.may_end() && rng.one_in(patience)) {
                break;
            }
            let step = rng.pick(&ahead);
            // a train that meets its own path mostly stops; else the row has a component twice
            if path.len() >= 512 || (train.has_passed(step.0) && !rng.one_in(3)) {
                break;
            }
            path.push(step.0);
            train.go(step);
        }
        // a path that cannot go on is cut back to its last signal, as a route must end
        if rng.below(4) > 0 {
            let is_signal = |e: &u16| matches!(plan.components[usize::from(e / 4)].sort, Sort::Signal(_));
            while path.len() > 1 && !path.last().is_some_and(is_signal) {
                path.pop();
            }
        }
        if path.len() > longest.len() {
            longest = path;
        }
    }
    longest
}

/// Every component once.
fn all_components(rng: &mut Rng) -> Vec<u16> {
    let mut entries: Vec<u16> = (0..512).map(|c| 4 * c + rng.below(3) as u16).collect();
    rng.shuffle(&mut entries);
    entries
}

fn random_entries(rng: &mut Rng, components: usize) -> Vec<u16> {
    let n = rng.pick(&[0, 1, 2, 3, 5, 9, 30, 511, 512, 513]);
    (0..n)
        .map(|_| 4 * rng.below(components) as u16 + rng.below(3) as u16)
        .collect()
}

fn spoil(entries: &mut Vec<u16>, rng: &mut Rng) {
    if entries.is_empty() {
        return;
    }
    let at = rng.below(entries.len());
    match rng.below(8) {
        0 => entries[at] = entries[at] / 4 * 4 + rng.below(3) as u16,
        1 => entries[at] = mistaken(usize::from(entries[at]), rng) as u16,
        2 => drop(entries.remove(at)),
        3 => entries.insert(at, entries[at]),
        4 => entries.swap(at, 0),
        5 => entries.truncate(at + 1),
        6 => entries.push(rng.below(2048) as u16),
        _ => entries.reverse(),
    }
}

fn spoil_bytes(row: &mut Vec<u8>, rng: &mut Rng) {
    match rng.below(4) {
        0 => drop(row.pop()),
        1 => row.push(rng.next() as u8),
        2 => row.truncate(rng.below(row.len() + 1)),
        _ => {
            let at = rng.below(row.len());
            row[at] ^= 1 << rng.below(8);
        }
    }
}

/// Any row: a path of the plan, a spoilt one, or a random one; sometimes bytes that are none.
pub fn row_for(plan: &Plan, rng: &mut Rng) -> Vec<u8> {
    let mut entries = match rng.below(20) {
        0 => random_entries(rng, 512),
        1 => random_entries(rng, plan.components.len().max(1)),
        2 if rng.one_in(4) => all_components(rng),
        _ => path(plan, rng),
    };
    if entries.len() < 2 && !rng.one_in(10) {
        entries = random_entries(rng, 8);
    }
    if rng.below(5) < 2 {
        spoil(&mut entries, rng);
    }
    let mut row = row(&entries);
    if rng.one_in(12) {
        spoil_bytes(&mut row, rng);
    }
    row
}
