//! The schedule.
use crate::circuits::{Both, Shape, circuit, of_crate};
use crate::timing::{Guard, both, print};
use relay::archive;
use std::time::Duration;

const WINDOWS: [(usize, &str); 4] = [(1, "window-1"), (2, "window-2"), (64, "window-64"), (usize::MAX, "window-all")];
const SIZES: [usize; 8] = [1_000, 10_000, 62_500, 100_000, 125_000, 250_000, 500_000, 1_000_000];

/// No single call over this many seconds.
const LIMIT: f64 = 1.0;

pub fn key(id: usize) -> (usize, usize, usize) {
    (id.wrapping_mul(0x9E37_79B9) >> 7 & 3, id.wrapping_mul(0x85EB_CA6B) >> 9 & 63, id)
}

/// The areas of a schedule, with old contents, and the keys.
pub struct Areas {
    keys: Vec<u32>,
    ready: Vec<usize>,
    successors: Vec<usize>,
    pub order: Vec<usize>,
}

impl Areas {
    pub fn new(made: &Both) -> Self {
        let count = made.circuit.nodes.len();
        let keys = (0..count).map(key).flat_map(|k| [k.0 as u32, k.1 as u32, k.2 as u32]).collect();
        Self { keys, ready: vec![7; 3 * count], successors: vec![7; 2 * count + 1], order: vec![7; count] }
    }

    pub fn schedule(&mut self, made: &Both, window: usize) -> usize {
        archive::scheduled_gates_by_key(
            &made.nodes,
            &made.outputs,
            window,
            &self.keys,
            &mut self.ready,
            &mut self.successors,
            &mut self.order,
        )
        .expect("an order")
    }

    /// The bytes lent to one call.
    pub fn lent(&self) -> usize {
        4 * self.keys.len() + 8 * (self.ready.len() + self.successors.len() + self.order.len())
    }
}

/// Sizes that double are for some windows of some shapes.
fn wanted(shape: Shape, window: usize, size: usize) -> bool {
    let power = [1_000, 10_000, 100_000, 1_000_000].contains(&size);
    power || matches!((shape, window), (Shape::Chain, 1) | (Shape::Wide, 2) | (Shape::Layered, 64) | (Shape::Wide | Shape::Layered, usize::MAX))
}

pub fn all() {
    for shape in Shape::ALL {
        let mut guards: Vec<(Guard, Guard)> = WINDOWS.iter().map(|_| (Guard::new(LIMIT), Guard::new(LIMIT))).collect();
        for size in SIZES {
            if !WINDOWS.iter().any(|(window, _)| wanted(shape, *window, size)) {
                continue;
            }
            let made = circuit(shape, size);
            let mut areas = Areas::new(&made);
            for ((window, kind), (our, their)) in WINDOWS.iter().zip(&mut guards) {
                if !wanted(shape, *window, size) {
                    continue;
                }
                if size <= 10_000 {
                    let cells = areas.schedule(&made, *window);
                    assert_eq!(made.circuit.scheduled_gates_by_key(*window, key).as_deref(), Ok(&areas.order[..cells]), "orders differ");
                }
                let ours = our.allows(size).then_some(|| areas.schedule(&made, *window));
                let theirs = their.allows(size).then_some(|| made.circuit.scheduled_gates_by_key(*window, key).expect("an order"));
                let times = both(Duration::from_millis(if size > 100_000 { 1 } else { 30 }), ours, theirs);
                our.saw(size, times.ours);
                their.saw(size, times.theirs);
                if times.ours.is_some() || times.theirs.is_some() {
                    print("schedule", shape.word(), size, kind, times);
                }
                if matches!((shape, window), (Shape::Layered, 64)) && size <= 100_000 {
                    let structs = of_crate(&made.circuit);
                    let ours = Some(|| structs.scheduled_gates_by_key(*window, key).expect("an order"));
                    let theirs = Some(|| made.circuit.scheduled_gates_by_key(*window, key).expect("an order"));
                    print("crate-schedule", shape.word(), size, kind, both(Duration::from_millis(30), ours, theirs));
                }
            }
        }
    }
}
