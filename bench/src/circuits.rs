//! Circuits of a given number of cells, as the reference's structs and as this library's records.
use crate::reference::{BoolCircuit, BoolNode, BoolWire};
use crate::texts::Random;

#[derive(Clone, Copy)]
pub enum Shape {
    /// Each cell reads the one before.
    Chain,
    /// Two chains, stored one after the other.
    TwoChains,
    /// No cell reads a cell.
    Wide,
    /// Layers of 1,000 cells, each reading two of the layer before.
    Layered,
    /// A chain stored from its end to its start: forward reads alone.
    Reversed,
}

impl Shape {
    pub const ALL: [Shape; 5] = [Shape::Chain, Shape::TwoChains, Shape::Wide, Shape::Layered, Shape::Reversed];

    pub fn word(self) -> &'static str {
        match self {
            Shape::Chain => "chain",
            Shape::TwoChains => "two-chains",
            Shape::Wide => "wide",
            Shape::Layered => "layered",
            Shape::Reversed => "reversed",
        }
    }

    /// The nodes that cell k of n reads, node numbers counting the inputs first.
    fn reads(self, k: usize, n: usize, random: &mut Random) -> (usize, usize) {
        let input = random.below(INPUTS);
        let before = |k: usize| if k == 0 { input } else { INPUTS + k - 1 };
        match self {
            Shape::Chain => (before(k), input),
            Shape::TwoChains => (if k == n / 2 { input } else { before(k) }, input),
            Shape::Wide => (input, random.below(INPUTS)),
            Shape::Layered => {
                let start = k / 1000 * 1000;
                if start == 0 {
                    (input, random.below(INPUTS))
                } else {
                    (INPUTS + start - 1 - random.below(1000), INPUTS + start - 1 - random.below(1000))
                }
            }
            Shape::Reversed => (if k + 1 == n { input } else { INPUTS + k + 1 }, input),
        }
    }
}

pub const INPUTS: usize = 16;
const OUTPUTS: usize = 8;

pub struct Both {
    pub circuit: BoolCircuit,
    pub nodes: Vec<usize>,
    pub outputs: Vec<usize>,
}

/// The tables of cells with two wires.
const TABLES: [usize; 6] = [8, 14, 6, 7, 1, 9];

/// A wire that a cell has not: its word is 0.
const NONE: BoolWire = BoolWire::Const(false);

/// A cell to build: its table, the number of its wires, and these.
struct Cell {
    table: usize,
    count: usize,
    wires: [BoolWire; 2],
}

impl Cell {
    fn of_nodes(table: usize, a: usize, b: usize) -> Self {
        Self { table, count: 2, wires: [BoolWire::Node(a), BoolWire::Node(b)] }
    }
}

/// A wire's word in a record.
fn word(wire: BoolWire) -> usize {
    match wire {
        BoolWire::Const(value) => usize::from(value),
        BoolWire::Node(id) => id + 2,
    }
}

/// A circuit with so many inputs before the given cells.
fn build(inputs: usize, cells: impl Iterator<Item = Cell>) -> Both {
    let mut both = Both { circuit: BoolCircuit::default(), nodes: Vec::new(), outputs: Vec::new() };
    for i in 0..inputs {
        both.circuit.nodes.push(BoolNode::Input { name: format!("i_{i}") });
        both.circuit.inputs.push(i);
        both.nodes.extend([1, 0, 0, 3, i, 0, 0, 0, 0]);
    }
    for Cell { table, count, wires } in cells {
        let id = both.circuit.nodes.len();
        let bits = (0..1 << count).map(|j| (table >> j & 1) as u8).collect();
        both.circuit.nodes.push(BoolNode::Lut { name: format!("w_{id}"), inputs: wires[..count].to_vec(), table: bits });
        both.nodes.extend([2, count, table, 3, id, 0, 0, word(wires[0]), word(wires[1])]);
    }
    let count = both.circuit.nodes.len();
    for o in 0..OUTPUTS {
        let id = count - 1 - o;
        let wire = BoolWire::Node(id);
        both.circuit.outputs.push((id.to_string(), wire));
        both.outputs.extend([3, id, 0, 0, word(wire)]);
    }
    both
}

fn cells(shape: Shape, n: usize) -> impl Iterator<Item = Cell> {
    let mut random = Random::new(11);
    (0..n).map(move |k| {
        let (a, b) = shape.reads(k, n, &mut random);
        Cell::of_nodes(TABLES[random.below(6)], a, b)
    })
}

pub fn circuit(shape: Shape, n: usize) -> Both {
    build(INPUTS, cells(shape, n))
}

/// The layered circuit with a quarter of its cells cut to their first wire (NOT or BUFF), and a constant for the second wire of one in a
/// hundred of the others.
pub fn mixed(n: usize) -> Both {
    let mut random = Random::new(13);
    build(
        INPUTS,
        cells(Shape::Layered, n).map(move |cell| {
            let first = cell.wires[0];
            if random.below(4) == 0 {
                Cell { table: 1 + random.below(2), count: 1, wires: [first, NONE] }
            } else if random.below(100) == 0 {
                Cell { wires: [first, BoolWire::Const(random.below(2) == 1)], ..cell }
            } else {
                cell
            }
        }),
    )
}

/// The layered circuit with one wire in its last cell alone.
pub fn late(n: usize) -> Both {
    let cut = move |(k, cell): (usize, Cell)| if k + 1 == n { Cell { table: 1, count: 1, wires: [cell.wires[0], NONE] } } else { cell };
    build(INPUTS, cells(Shape::Layered, n).enumerate().map(cut))
}

/// A circuit with few inputs for the sweep over all assignments, each cell reading any earlier nodes.
pub fn swept(inputs: usize, cells: usize) -> Both {
    let mut random = Random::new(12);
    build(inputs, (0..cells).map(move |k| Cell::of_nodes(TABLES[random.below(6)], random.below(inputs + k), random.below(inputs + k))))
}

/// The same circuit as the Rust crate's structs.
pub fn of_crate(circuit: &BoolCircuit) -> relay::BoolCircuit {
    let wire = |wire: &BoolWire| match wire {
        BoolWire::Const(value) => relay::BoolWire::Const(*value),
        BoolWire::Node(id) => relay::BoolWire::Node(*id),
    };
    let node = |node: &BoolNode| match node {
        BoolNode::Input { name } => relay::BoolNode::Input { name: name.clone() },
        BoolNode::Lut { name, inputs, table } => {
            relay::BoolNode::Lut { name: name.clone(), inputs: inputs.iter().map(wire).collect(), table: table.clone() }
        }
    };
    relay::BoolCircuit {
        nodes: circuit.nodes.iter().map(node).collect(),
        inputs: circuit.inputs.clone(),
        outputs: circuit.outputs.iter().map(|(name, w)| (name.clone(), wire(w))).collect(),
    }
}
