//! A circuit as the library's records, and back.
use crate::circuit::{BoolCircuit, BoolNode, BoolWire};

pub const NODE_WORDS: usize = 9;
pub const OUTPUT_WORDS: usize = 5;
pub const NAME_WORDS: usize = 5;

const INPUT: usize = 1;
const CELL: usize = 2;
const STRETCH: usize = 1;
const STEP: usize = 2;
const NUMBER: usize = 3;

/// A table that no cell may have: the record is refused as broken.
const NO_TABLE: usize = usize::MAX;

fn wire_word(wire: BoolWire) -> usize {
    match wire {
        BoolWire::Const(value) => usize::from(value),
        // no sum that wraps: a number so large is beyond every node count
        BoolWire::Node(node) => node.saturating_add(2),
    }
}

fn word_wire(word: usize) -> BoolWire {
    match word {
        0 | 1 => BoolWire::Const(word == 1),
        _ => BoolWire::Node(word - 2),
    }
}

/// The table as a number, entry j being bit j; what is no table of so many wires becomes a number that the check refuses.
fn packed(wires: usize, table: &[u8]) -> usize {
    match (wires, table) {
        (1, &[a, b]) if (a | b) <= 1 => usize::from(a | (b << 1)),
        (2, &[a, b, c, d]) if (a | b | c | d) <= 1 => usize::from(a | (b << 1) | (c << 2) | (d << 3)),
        _ => NO_TABLE,
    }
}

/// The records of a circuit's nodes and outputs, and the numbers of its input nodes. Names are left out: no call on records looks at them.
pub struct Records {
    pub nodes: Vec<usize>,
    pub outputs: Vec<usize>,
    pub inputs: Vec<usize>,
}

pub fn records(circuit: &BoolCircuit) -> Records {
    let mut numbers = Vec::new();
    let record = |(id, node): (usize, &BoolNode)| match node {
        BoolNode::Input { .. } => {
            numbers.push(id);
            [INPUT, 0, 0, NUMBER, id, 0, 0, 0, 0]
        }
        BoolNode::Lut { inputs, table, .. } => {
            let wire = |at: usize| inputs.get(at).map_or(0, |wire| wire_word(*wire));
            [CELL, inputs.len(), packed(inputs.len(), table), NUMBER, id, 0, 0, wire(0), wire(1)]
        }
    };
    let nodes: Vec<[usize; NODE_WORDS]> = circuit.nodes.iter().enumerate().map(record).collect();
    let outputs: Vec<_> = circuit.outputs.iter().enumerate().map(|(place, (_, wire))| [NUMBER, place, 0, 0, wire_word(*wire)]).collect();
    Records { nodes: nodes.into_flattened(), outputs: outputs.into_flattened(), inputs: numbers }
}

/// A name's text; `letter` goes before a Bristol wire number.
fn name(words: &[usize], joined: &[u8], letter: &str) -> String {
    let stretch = |start: usize, len: usize| String::from_utf8_lossy(&joined[start..start + len]).into_owned();
    match words[0] {
        STRETCH => stretch(words[1], words[2]),
        STEP => format!("{}$bench${}", stretch(words[1], words[2]), words[3]),
        _ => format!("{letter}{}", words[1]),
    }
}

/// The circuit of records that a reader left.
pub fn circuit(nodes: &[usize], outputs: &[usize], joined: &[u8]) -> BoolCircuit {
    let mut circuit = BoolCircuit { nodes: Vec::with_capacity(nodes.len() / NODE_WORDS), ..BoolCircuit::default() };
    for (id, record) in nodes.chunks_exact(NODE_WORDS).enumerate() {
        let (kind, wires, table) = (record[0], record[1], record[2]);
        circuit.nodes.push(if kind == INPUT {
            circuit.inputs.push(id);
            BoolNode::Input { name: name(&record[3..7], joined, "i_") }
        } else {
            BoolNode::Lut {
                name: name(&record[3..7], joined, "w_"),
                inputs: record[7..7 + wires].iter().map(|word| word_wire(*word)).collect(),
                table: (0..1usize << wires).map(|entry| (table >> entry & 1) as u8).collect(),
            }
        });
    }
    circuit.outputs = outputs.chunks_exact(OUTPUT_WORDS).map(|record| (name(&record[..4], joined, ""), word_wire(record[4]))).collect();
    circuit
}
