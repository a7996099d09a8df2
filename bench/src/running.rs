//! `evaluate`, the run, refused ones too (beside the reference's `evaluate`: it has no run), and the sweep over all numbered assignments.
use crate::circuits::{self, Both, Shape, circuit, of_crate, swept};
use crate::plain::Plain;
use crate::scheduling;
use crate::timing::{both, print};
use relay::{Refusal, archive};
use std::collections::HashMap;
use std::time::Duration;

const BUDGET: Duration = Duration::from_millis(60);
const SIZES: [usize; 9] = [100, 1_000, 10_000, 62_500, 100_000, 125_000, 250_000, 500_000, 1_000_000];

pub fn named(made: &Both, bits: &[u8]) -> HashMap<String, bool> {
    made.circuit.inputs.iter().zip(bits).map(|(id, bit)| (made.circuit.nodes[*id].name().to_owned(), *bit == 1)).collect()
}

pub fn assignment(made: &Both) -> Vec<u8> {
    (0..made.circuit.inputs.len()).map(|p| (p * 5 / 3 % 2) as u8).collect()
}

/// The value store and the output area, with old contents.
pub struct Areas {
    pub values: Vec<u8>,
    pub answers: Vec<u8>,
}

impl Areas {
    pub fn new(made: &Both) -> Self {
        Self { values: vec![7; made.nodes.len() / 9], answers: vec![7; made.outputs.len() / 5] }
    }

    pub fn evaluate(&mut self, made: &Both, bits: &[u8]) -> usize {
        archive::evaluate(&made.nodes, &made.outputs, bits, &mut self.values, &mut self.answers).expect("outputs")
    }

    pub fn run(&mut self, made: &Both, order: &[usize], bits: &[u8]) -> usize {
        self.answer(made, order, bits).expect("outputs")
    }

    /// A run's answer: its cells, or the refusal's number.
    fn answer(&mut self, made: &Both, order: &[usize], bits: &[u8]) -> archive::Answer<usize> {
        archive::run(&made.nodes, &made.outputs, order, bits, &mut self.values, &mut self.answers)
    }

    /// The bytes lent to one call.
    pub fn lent(&self) -> usize {
        self.values.len() + self.answers.len()
    }
}

/// A circuit with an assignment as each side takes it, and the outputs that the reference gives.
struct Subject {
    word: &'static str,
    size: usize,
    made: Both,
    bits: Vec<u8>,
    map: HashMap<String, bool>,
    expected: Vec<u8>,
}

impl Subject {
    fn new(word: &'static str, size: usize, made: Both) -> Self {
        let bits = assignment(&made);
        let map = named(&made, &bits);
        let expected = made.circuit.evaluate(&map).expect("outputs").iter().map(|(_, value)| u8::from(*value)).collect();
        Self { word, size, made, bits, map, expected }
    }

    fn reference(&self) -> Vec<(String, bool)> {
        self.made.circuit.evaluate(&self.map).expect("outputs")
    }

    /// A call beside the reference's `evaluate`.
    fn row<T>(&self, part: &str, kind: &str, ours: impl FnMut() -> T) {
        print(part, self.word, self.size, kind, both(BUDGET, Some(ours), Some(|| self.reference())));
    }

    /// The run along a list beside the plain loop in Rust that does the same.
    fn plain_row(&self, areas: &mut Areas, order: &[usize], kind: &str) {
        let mut plain = Plain::new(self.made.nodes.len() / 9);
        let mut answers = vec![7; self.expected.len()];
        assert!(plain.run(&self.made.nodes, &self.made.outputs, order, &self.bits, &mut answers).is_some(), "refused");
        assert_eq!(answers, self.expected, "outputs differ");
        let theirs = || plain.run(&self.made.nodes, &self.made.outputs, order, &self.bits, &mut answers).expect("outputs");
        print("run-plain", self.word, self.size, kind, both(BUDGET, Some(|| areas.run(&self.made, order, &self.bits)), Some(theirs)));
    }

    /// A call beside the reference's check of the circuit and its `evaluate`.
    fn checked_row<T>(&self, part: &str, kind: &str, ours: impl FnMut() -> T) {
        let theirs = || self.made.circuit.validate_topological().map(|()| self.reference()).expect("a circuit");
        print(part, self.word, self.size, kind, both(BUDGET, Some(ours), Some(theirs)));
    }

    fn evaluate(&self, areas: &mut Areas) {
        areas.evaluate(&self.made, &self.bits);
        assert_eq!(areas.answers, self.expected, "outputs differ");
        self.row("evaluate", "known", || areas.evaluate(&self.made, &self.bits));
    }

    fn run(&self, areas: &mut Areas, order: &[usize], kind: &str) {
        areas.run(&self.made, order, &self.bits);
        assert_eq!(areas.answers, self.expected, "outputs differ");
        self.row("run", kind, || areas.run(&self.made, order, &self.bits));
    }

    fn refused(&self, areas: &mut Areas, order: &[usize], kind: &str, refusal: Refusal) {
        assert_eq!(areas.answer(&self.made, order, &self.bits), Err(refusal.number()), "another answer");
        self.row("run-refused", kind, || areas.answer(&self.made, order, &self.bits).expect_err("a refusal"));
    }
}

/// The Rust crate's `evaluate`, and its evaluator, made once.
fn by_crate(subject: &Subject) {
    let structs = of_crate(&subject.made.circuit);
    subject.row("crate-evaluate", "known", || structs.evaluate(&subject.map).expect("outputs"));
    let mut evaluator = structs.evaluator();
    let known: Vec<bool> = subject.bits.iter().map(|bit| *bit == 1).collect();
    subject.row("crate-evaluator", "known", || evaluator.evaluate(&known).expect("outputs").len());
}

/// Runs along the list of each window, beside the plain loop and the reference's check too; the list of window 64 also with unknowns.
fn runs(subject: &Subject, areas: &mut Areas, scheduled: &mut scheduling::Areas) {
    let (made, bits) = (&subject.made, &subject.bits);
    for (window, kind) in [(1, "window-1"), (64, "window-64"), (usize::MAX, "window-all")] {
        let cells = scheduled.schedule(made, window);
        let order = &scheduled.order[..cells];
        subject.run(areas, order, kind);
        subject.plain_row(areas, order, kind);
        subject.checked_row("run", &format!("{kind}-checked"), || areas.run(made, order, bits));
        if window == 64 {
            let half: Vec<u8> = bits.iter().enumerate().map(|(p, bit)| if p % 2 == 0 { 2 } else { *bit }).collect();
            subject.row("run", "window-64-half-unknown", || areas.run(made, order, &half));
        }
    }
}

/// Runs that are refused: along a list that ends with its first cell again, and of records whose last has a table that no cell can have.
fn refusals(mut subject: Subject, areas: &mut Areas, order: &[usize]) {
    let mut twice = order.to_vec();
    twice[order.len() - 1] = order[0];
    subject.refused(areas, &twice, "window-64-twice", Refusal::UnfitOrder);
    let last = subject.made.nodes.len() - 9;
    subject.made.nodes[last + 2] = 16;
    subject.refused(areas, order, "broken-last", Refusal::Broken);
}

fn layered(size: usize) {
    let subject = Subject::new("layered", size, circuit(Shape::Layered, size));
    let mut areas = Areas::new(&subject.made);
    subject.evaluate(&mut areas);
    if size <= 100_000 {
        by_crate(&subject);
    }
    subject.checked_row("evaluate", "known-checked", || areas.evaluate(&subject.made, &subject.bits));
    let mut scheduled = scheduling::Areas::new(&subject.made);
    runs(&subject, &mut areas, &mut scheduled);
    let cells = scheduled.schedule(&subject.made, 64);
    refusals(subject, &mut areas, &scheduled.order[..cells]);
}

fn mixed(size: usize) {
    let subject = Subject::new("mixed", size, circuits::mixed(size));
    let mut areas = Areas::new(&subject.made);
    subject.evaluate(&mut areas);
    let mut scheduled = scheduling::Areas::new(&subject.made);
    let cells = scheduled.schedule(&subject.made, 64);
    let order = &scheduled.order[..cells];
    subject.run(&mut areas, order, "window-64");
    subject.plain_row(&mut areas, order, "window-64");
    subject.checked_row("run", "window-64-checked", || areas.run(&subject.made, order, &subject.bits));
}

fn late(size: usize) {
    let subject = Subject::new("late", size, circuits::late(size));
    let mut scheduled = scheduling::Areas::new(&subject.made);
    let cells = scheduled.schedule(&subject.made, 64);
    subject.run(&mut Areas::new(&subject.made), &scheduled.order[..cells], "window-64");
}

/// All numbered assignments in turn.
fn sweep(inputs: usize, cells: usize) {
    let (made, word) = (swept(inputs, cells), format!("inputs-{inputs}"));
    let theirs = || {
        made.circuit
            .exhaustive_inputs()
            .expect("few inputs")
            .iter()
            .map(|map| made.circuit.evaluate(map).expect("outputs").len())
            .sum::<usize>()
    };
    let (mut areas, mut bits) = (Areas::new(&made), vec![7u8; inputs]);
    let ours = || {
        for number in 0..1usize << inputs {
            archive::exhaustive_inputs(&made.nodes, &made.outputs, number, &mut bits).expect("an assignment");
            areas.evaluate(&made, &bits);
        }
    };
    print("sweep", &word, cells, "all", both(BUDGET * 2, Some(ours), Some(theirs)));
    let mut evaluator = of_crate(&made.circuit).evaluator();
    let ours = || {
        for number in 0..1usize << inputs {
            let assignment = evaluator.assignment(number).expect("an assignment");
            evaluator.evaluate(&assignment).expect("outputs");
        }
    };
    print("crate-sweep", &word, cells, "all", both(BUDGET * 2, Some(ours), Some(theirs)));
}

pub fn all() {
    SIZES.into_iter().for_each(layered);
    SIZES.into_iter().for_each(mixed);
    SIZES.into_iter().for_each(late);
    for (inputs, cells) in [(10, 100), (10, 1_000), (16, 100)] {
        sweep(inputs, cells);
    }
}
