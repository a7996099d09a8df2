//! Random circuits of many cells. How many cells are ready at a time is what the parts of a schedule differ in, so the shapes
//! differ in that: all at once, a layer at a time, as many as there are chains, a few, or none and then many.
use crate::generate::Random;
use crate::reference::{BoolCircuit, BoolNode, BoolWire};

/// What a cell reads, by its place among the cells.
#[derive(Clone, Copy, Debug)]
pub enum Shape {
    /// inputs and constants, here and there an earlier cell
    Wide,
    /// cells of the layer before, layers of various widths
    Layered,
    /// the cell so many places before: chains beside chains
    ChainsBeside,
    /// the cell before, but for the first of so many: chain after chain
    ChainsBehind,
    /// any earlier cell
    Scattered,
    /// one of the last few cells
    Near,
    /// the first cell of its group, which reads the last cell of the group before: many get ready at once
    Fans,
}

pub const SHAPES: [Shape; 7] = [Shape::Wide, Shape::Layered, Shape::ChainsBeside, Shape::ChainsBehind, Shape::Scattered, Shape::Near, Shape::Fans];

/// How the nodes are numbered.
#[derive(Clone, Copy, Debug, PartialEq, Eq)]
pub enum Numbering {
    /// each after what it reads
    Stored,
    /// otherwise, so that there are forward reads and no circle
    Shuffled,
    /// with cells that read in a circle
    Circle,
}

pub const NUMBERINGS: [Numbering; 5] = [Numbering::Stored, Numbering::Shuffled, Numbering::Stored, Numbering::Circle, Numbering::Stored];

/// A shape with its sizes.
struct Plan {
    shape: Shape,
    /// how many chains, how long a chain, how far a read, how large a group
    size: usize,
    /// the places where layers start, the last one the number of cells
    layers: Vec<usize>,
}

impl Plan {
    fn new(random: &mut Random, shape: Shape, cells: usize) -> Self {
        let size = [1 + random.below(8), 30 + random.below(10), 60 + random.below(10), 1 + random.below(cells)][random.below(4)];
        let most = [8, 80, 400, cells][random.below(4)];
        let mut layers = vec![0];
        let mut start = 0;
        while start < cells {
            start = (start + 1 + random.below(most)).min(cells);
            layers.push(start);
        }
        Self { shape, size, layers }
    }

    /// The place of a cell that the cell at place k reads.
    fn read(&self, random: &mut Random, k: usize) -> Option<usize> {
        let any = |random: &mut Random| (k > 0).then(|| random.below(k));
        match self.shape {
            Shape::Wide => if random.chance(5) { any(random) } else { None },
            Shape::Layered => {
                let layer = self.layers.partition_point(|start| *start <= k);
                (layer > 1).then(|| self.layers[layer - 2] + random.below(self.layers[layer - 1] - self.layers[layer - 2]))
            }
            Shape::ChainsBeside => k.checked_sub(self.size),
            Shape::ChainsBehind => if k % self.size == 0 { None } else { Some(k - 1) },
            Shape::Scattered => any(random),
            Shape::Near => (k > 0).then(|| k - 1 - random.below(self.size.min(k))),
            Shape::Fans => if k % self.size == 0 { k.checked_sub(1) } else { Some(k - k % self.size) },
        }
    }
}

/// A constant in so many cases of a hundred, and where there is no node.
fn constant_or(random: &mut Random, constants: usize, nodes: &[usize]) -> BoolWire {
    if nodes.is_empty() || random.chance(constants) {
        return BoolWire::Const(random.chance(50));
    }
    BoolWire::Node(nodes[random.below(nodes.len())])
}

/// A circuit in which each node reads earlier ones; cells of one and two wires, some of which read one node twice, or of two wires of
/// nodes alone, some of these but for the last.
fn stored(random: &mut Random, shape: Shape, count: usize) -> BoolCircuit {
    let plan = Plan::new(random, shape, count);
    let mut circuit = BoolCircuit::default();
    let first = [0, 1, 5, 30][random.below(4)];
    let among = [0, 1, 10, 40][random.below(4)];
    let pairs = [10, 50, 100, 100][random.below(4)];
    let constants = [0, 5][random.below(2)];
    let late = random.chance(25);
    let mut cells: Vec<usize> = Vec::new();
    while cells.len() < count {
        let id = circuit.nodes.len();
        if id < first || random.chance(among) {
            circuit.inputs.push(id);
            circuit.nodes.push(BoolNode::Input { name: format!("i{id}") });
            continue;
        }
        let wire = |random: &mut Random, planned: usize| match plan.read(random, cells.len()) {
            Some(place) if random.chance(planned) => BoolWire::Node(cells[place]),
            _ => constant_or(random, constants, &circuit.inputs),
        };
        let mut inputs = vec![wire(random, 98)];
        if random.chance(pairs) && !(late && cells.len() + 1 == count) {
            let second = if random.chance(12) { inputs[0] } else { wire(random, 50) };
            inputs.insert(random.below(2), second);
        }
        let table = (0..1 << inputs.len()).map(|_| random.below(2) as u8).collect();
        circuit.nodes.push(BoolNode::Lut { name: format!("w{id}"), inputs, table });
        cells.push(id);
    }
    let nodes: Vec<usize> = (0..circuit.nodes.len()).collect();
    circuit.outputs = match random.below(3) {
        // every node, so that a run's answer is the answer of each
        0 => nodes.iter().map(|id| (format!("o{id}"), BoolWire::Node(*id))).collect(),
        most => (0..random.below(most * 50)).map(|k| (format!("o{k}"), constant_or(random, 5, &nodes))).collect(),
    };
    circuit
}

fn shuffle(random: &mut Random, list: &mut [usize]) {
    for i in (1..list.len()).rev() {
        list.swap(i, random.below(i + 1));
    }
}

/// The new number of each node: all anew, from the last to the first, anew within groups, or a few that change places.
fn numbers(random: &mut Random, count: usize) -> Vec<usize> {
    let mut new: Vec<usize> = (0..count).collect();
    match random.below(4) {
        0 => shuffle(random, &mut new),
        1 => new.reverse(),
        2 => {
            let size = 2 + random.below(200);
            new.chunks_mut(size).for_each(|group| shuffle(random, group));
        }
        _ => (0..1 + random.below(9)).for_each(|_| new.swap(random.below(count), random.below(count))),
    }
    new
}

/// The same circuit with other numbers.
fn renumbered(circuit: BoolCircuit, new: &[usize]) -> BoolCircuit {
    let moved = |wire: BoolWire| match wire {
        BoolWire::Node(id) => BoolWire::Node(new[id]),
        constant => constant,
    };
    let mut nodes: Vec<(usize, BoolNode)> = circuit.nodes.into_iter().enumerate().map(|(id, node)| (new[id], node)).collect();
    nodes.sort_by_key(|(id, _)| *id);
    let nodes: Vec<BoolNode> = nodes
        .into_iter()
        .map(|(_, node)| match node {
            BoolNode::Lut { name, inputs, table } => BoolNode::Lut { name, inputs: inputs.into_iter().map(moved).collect(), table },
            input => input,
        })
        .collect();
    let inputs = (0..nodes.len()).filter(|id| matches!(nodes[*id], BoolNode::Input { .. })).collect();
    let outputs = circuit.outputs.into_iter().map(|(name, wire)| (name, moved(wire))).collect();
    BoolCircuit { nodes, inputs, outputs }
}

/// The cells among the reads of a node.
pub fn cells_read(circuit: &BoolCircuit, id: usize) -> impl Iterator<Item = usize> + '_ {
    circuit.nodes[id].inputs().iter().filter_map(|wire| match wire {
        BoolWire::Node(read) if matches!(circuit.nodes[*read], BoolNode::Lut { .. }) => Some(*read),
        _ => None,
    })
}

/// Makes a cell read one that reads it, over some steps or none.
fn close_circle(random: &mut Random, circuit: &mut BoolCircuit) {
    let cells = circuit.topological_gates();
    let last = cells[random.below(cells.len())];
    let mut first = last;
    for _ in 0..random.below(60) {
        let reads: Vec<usize> = cells_read(circuit, first).collect();
        if reads.is_empty() {
            break;
        }
        first = reads[random.below(reads.len())];
    }
    if let BoolNode::Lut { inputs, .. } = &mut circuit.nodes[first] {
        let place = random.below(inputs.len());
        inputs[place] = BoolWire::Node(last);
    }
}

/// A circuit of so many cells.
pub fn circuit(random: &mut Random, shape: Shape, numbering: Numbering, cells: usize) -> BoolCircuit {
    let mut circuit = stored(random, shape, cells);
    if numbering == Numbering::Circle {
        close_circle(random, &mut circuit);
    }
    if numbering == Numbering::Shuffled || numbering == Numbering::Circle && random.chance(50) {
        let new = numbers(random, circuit.nodes.len());
        circuit = renumbered(circuit, &new);
    }
    circuit
}

/// Keys for so many nodes: many equal ones, ones that differ in one place of the three, ones that rise or fall with the number,
/// the least and greatest numbers, and ones that differ.
pub fn keys(random: &mut Random, count: usize) -> Vec<u32> {
    let kind = random.below(8);
    let small = |random: &mut Random| random.below(3) as u32;
    let key = |id: usize, random: &mut Random| match kind {
        0 => [7, 7, 7],
        1 => [small(random), small(random), small(random)],
        2 => [small(random), 5, 5],
        3 => [5, 5, random.below(40) as u32],
        4 => [1, id as u32, small(random)],
        5 => [1, 1, (count - id) as u32 / 2],
        6 => [0; 3].map(|_: u32| [0, 1, u32::MAX - 1, u32::MAX][random.below(4)]),
        _ => [random.next() as u32, random.next() as u32, id as u32],
    };
    (0..count).flat_map(|id| key(id, random)).collect()
}
