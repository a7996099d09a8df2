//! What was compared, by way, format and answer.
use crate::generate::Format;
use crate::large::Seen;
use std::collections::BTreeMap;

pub struct Report {
    seen: BTreeMap<(&'static str, Format, usize), usize>,
    circuits: BTreeMap<usize, usize>,
    large: Seen,
    compared: usize,
    /// what differs, each with the length of its text
    differences: Vec<(usize, String)>,
}

impl Report {
    pub fn new() -> Self {
        Self { seen: BTreeMap::new(), circuits: BTreeMap::new(), large: Seen::default(), compared: 0, differences: Vec::new() }
    }

    /// A text that went one way; its answer, or what differs.
    pub fn add(&mut self, way: &'static str, format: Format, text: &[u8], answer: Result<usize, String>) {
        self.compared += 1;
        match answer {
            Ok(n) => *self.seen.entry((way, format, n)).or_default() += 1,
            Err(what) => self.differences.push((text.len(), format!("{way}, {format:?}: {what}\n{:?}", String::from_utf8_lossy(&text[..text.len().min(4000)])))),
        }
    }

    /// Whether few texts with this answer went that way.
    pub fn rare<T>(&self, way: &'static str, format: Format, answer: &Result<(usize, T), String>) -> bool {
        answer.as_ref().map_or(true, |(n, _)| self.seen.get(&(way, format, *n)).is_none_or(|times| *times < 10))
    }

    pub fn add_circuit(&mut self, answer: Result<usize, String>) {
        self.compared += 1;
        match answer {
            Ok(n) => *self.circuits.entry(n).or_default() += 1,
            Err(what) => self.differences.push((what.len(), what)),
        }
    }

    pub fn add_large(&mut self, answer: Result<Seen, String>) {
        self.compared += 1;
        match answer {
            Ok(seen) => self.large.add(seen),
            Err(what) => self.differences.push((what.len(), what)),
        }
    }

    /// The tree of the schedule took cells at every window that leads to it.
    pub fn require_windows(&mut self) {
        for window in self.large.unmet() {
            self.differences.push((usize::MAX, format!("large circuits: no order on both sides has cells that the tree took at window {window}")));
        }
    }

    /// Lists were tested by marks of every size.
    pub fn require_marks(&mut self) {
        for word in self.large.untested() {
            self.differences.push((usize::MAX, format!("large circuits: no list is tested by the marks called {word}")));
        }
    }

    /// Every refusal of 01 that a text of the format can have was met, both ways.
    pub fn require_numbers(&mut self) {
        for way in ["library", "list program"] {
            for (format, numbers) in [
                (Format::Blif, &[0, 1, 2, 3, 4, 5, 6, 7, 8, 9, 10][..]),
                (Format::Bench, &[0, 1, 2, 3, 4, 5, 6, 8, 9, 10]),
                (Format::Bristol, &[0, 1, 2, 3, 5, 6, 8, 9, 11, 12, 13, 14]),
            ] {
                for n in numbers {
                    let from = if way == "library" && *n == 3 { "short areas" } else { way };
                    if !self.seen.contains_key(&(from, format, *n)) {
                        self.differences.push((usize::MAX, format!("{from}, {format:?}: no text has the answer {n} on both sides")));
                    }
                }
            }
        }
    }

    /// Prints the counts and the difference of the shortest text; the status.
    pub fn print(&self) -> i32 {
        let mut lines: BTreeMap<(&str, Format), (usize, Vec<String>)> = BTreeMap::new();
        for ((way, format, n), times) in &self.seen {
            let line = lines.entry((way, *format)).or_default();
            line.0 += times;
            line.1.push(if *n == 0 { format!("accepted {times}") } else { format!("{n}: {times}") });
        }
        for ((way, format), (all, parts)) in &lines {
            println!("{way}, {format:?}, {all}: {}", parts.join(", "));
        }
        if !self.circuits.is_empty() {
            let parts: Vec<String> = self.circuits.iter().map(|(n, times)| if *n == 0 { format!("ordered {times}") } else { format!("{n}: {times}") }).collect();
            println!("random circuits, {}: {}", self.circuits.values().sum::<usize>(), parts.join(", "));
        }
        if self.large.circuits > 0 {
            let Seen { circuits, circles, forward, orders, ranked, runs, marks, far, unfit } = &self.large;
            println!("large circuits, {circuits}: ordered {}, 17: {circles}; run {runs}, 16: {forward}; each with a record broken, 15", circuits - circles);
            println!("runs of large circuits, {}: of up to 4,096 nodes {}, of up to 131,072 {}, of more {}", runs + far, marks.few, marks.many, marks.most);
            println!("orders of large circuits, {orders}: with cells that the tree took {}; altered orders that the run refused, 20: {unfit}", ranked.len());
        }
        if let Some((_, what)) = self.differences.iter().min_by_key(|(len, _)| *len) {
            println!("{what}");
        }
        println!("{} compared, {} differ", self.compared, self.differences.len());
        i32::from(!self.differences.is_empty())
    }
}
