//! What a reader must answer and leave: the reference's answer, with 01's numbers, capacities and areas.
use crate::generate::Format;
use crate::reference::records::{self, Places, MOST};
use crate::reference::{BoolCircuit, BoolNode, BoolWire};

/// Words of a name record.
pub const NAME_WORDS: usize = 5;

/// Words (for the joined text, bytes) of each area that is lent.
#[derive(Clone, Copy, Debug)]
pub struct Lent {
    pub joined: usize,
    pub nodes: usize,
    pub names: usize,
    pub outputs: usize,
    pub wires: usize,
}

impl Lent {
    /// Areas that just hold so many records.
    pub fn exactly(places: Places, text: usize) -> Self {
        Self { joined: text + 1, nodes: places.nodes * 9, names: places.names * NAME_WORDS, outputs: places.outputs * 5, wires: places.wires }
    }

    fn holds(&self, places: Places) -> bool {
        let enough = |words: usize, width: usize, needed: usize| needed <= (words / width).min(MOST);
        enough(self.nodes, 9, places.nodes) && enough(self.names, NAME_WORDS, places.names) && enough(self.outputs, 5, places.outputs) && enough(self.wires, 1, places.wires)
    }
}

pub enum Expected {
    Circuit { circuit: Box<BoolCircuit>, joined: Vec<u8>, nodes: Vec<usize>, outputs: Vec<usize> },
    Refused(usize),
}

/// The refusal number of document 01 for an error of the reference.
fn number(format: Format, error: &str) -> Option<usize> {
    let has = |part: &str| error.contains(part);
    let starts = |parts: &[&str]| parts.iter().any(|part| error.starts_with(part));
    let table: &[(bool, usize)] = &match format {
        Format::Blif => vec![
            (starts(&["duplicate input '", "duplicate wire '"]), 4),
            (starts(&["gate '"]) && has("' references undefined wire '"), 5),
            (starts(&["output '"]) && has("' is undefined"), 5),
            (starts(&["gate '"]) && has(" inputs; map the circuit to 2-input gates first"), 6),
            (starts(&["gate '"]), 7),
            (starts(&["unsupported BLIF directive '"]), 8),
            (starts(&[".names requires an output", "unexpected line '"]), 9),
            (starts(&["circuit has no outputs"]), 10),
        ],
        Format::Bench => vec![
            (starts(&["duplicate input '", "duplicate wire '"]), 4),
            (starts(&["gate '"]) && has("' references undefined wire '"), 5),
            (starts(&["output '"]) && has("' is undefined"), 5),
            (starts(&["unsupported BENCH operation '", "unexpected BENCH declaration '"]), 8),
            (starts(&["gate has an empty output", "expected an invocation", "missing ')'", "invalid invocation", "missing operation", "empty argument"]), 9),
            (starts(&["circuit has no outputs"]), 10),
            // these start with what stands in the text
            (error.ends_with("' requires one input") || error.ends_with("' requires at least two inputs"), 6),
            (error.ends_with(" requires exactly one wire name"), 6),
        ],
        Format::Bristol => vec![
            (starts(&["Bristol circuit is missing", "Bristol first line", "invalid Bristol gate row", "Bristol gate row has wrong width"]), 9),
            (starts(&["expected an integer", "invalid Bristol gate input count", "invalid Bristol gate output count", "invalid wire '", "invalid output wire"]), 12),
            (starts(&["Bristol input header", "Bristol output header", "Bristol input/output counts", "Bristol header declares"]), 11),
            (starts(&["Bristol gate '"]), 6),
            (starts(&["output wire "]) && has(" is outside 0.."), 13),
            (starts(&["gate references undefined wire "]), 5),
            (starts(&["output wire "]) && error.ends_with(" is undefined"), 5),
            (starts(&["EQ requires one input", "EQW requires one input", "BUF requires one input"]), 6),
            (starts(&["unsupported Bristol operation '"]), 8),
            (starts(&["wire "]) && error.ends_with(" is assigned more than once"), 14),
        ],
    };
    table.iter().find(|(fits, _)| *fits).map(|(_, n)| *n)
}

pub fn wire_word(wire: &BoolWire) -> usize {
    match wire {
        BoolWire::Const(value) => usize::from(*value),
        BoolWire::Node(node) => node + 2,
    }
}

/// A node's words: kind, wire count, table, name, two wires.
pub fn node_words(node: &BoolNode, name: [usize; 4]) -> [usize; 9] {
    let [tag, start, len, step] = name;
    match node {
        BoolNode::Input { .. } => [1, 0, 0, tag, start, len, step, 0, 0],
        BoolNode::Lut { inputs, table, .. } => {
            let packed = table.iter().enumerate().map(|(j, bit)| usize::from(*bit) << j).sum();
            let wire = |p: usize| inputs.get(p).map_or(0, wire_word);
            [2, inputs.len(), packed, tag, start, len, step, wire(0), wire(1)]
        }
    }
}

fn output_words(wire: &BoolWire, name: [usize; 4]) -> [usize; 5] {
    [name[0], name[1], name[2], name[3], wire_word(wire)]
}

/// A name's bytes as the reference has them, from its words.
fn spelled(joined: &[u8], name: [usize; 4], letter: &str) -> Vec<u8> {
    let [tag, start, len, step] = name;
    match tag {
        1 => joined[start..start + len].to_vec(),
        2 => [&joined[start..start + len], format!("$bench${step}").as_bytes()].concat(),
        _ => format!("{letter}{start}").into_bytes(),
    }
}

fn parse(format: Format, text: &str) -> Result<BoolCircuit, String> {
    match format {
        Format::Blif => BoolCircuit::parse_blif(text),
        Format::Bench => BoolCircuit::parse_bench(text),
        Format::Bristol => BoolCircuit::parse_bristol(text),
    }
}

/// The places that a text asks for; none if it is no text of 01's.
pub fn places(format: Format, text: &[u8]) -> Places {
    if text.len() > MOST || !text.is_ascii() {
        return Places::default();
    }
    read_records(format, std::str::from_utf8(text).unwrap_or("")).places
}

fn read_records(format: Format, text: &str) -> records::Reading {
    match format {
        Format::Blif => records::blif(text),
        Format::Bench => records::bench(text),
        Format::Bristol => records::bristol(text),
    }
}

/// The answer for a text and lent areas, in 01's order: 1, 2, 3 of the joined area, then as the reference, with 3 where a place lacks.
pub fn expected(format: Format, text: &[u8], lent: &Lent) -> Result<Expected, String> {
    if text.len() > MOST {
        return Ok(Expected::Refused(1));
    }
    let Ok(source) = std::str::from_utf8(text) else { return Ok(Expected::Refused(2)) };
    if !source.is_ascii() {
        return Ok(Expected::Refused(2));
    }
    if format != Format::Bristol && lent.joined < text.len() + 1 {
        return Ok(Expected::Refused(3));
    }
    let reading = read_records(format, source);
    if !lent.holds(reading.places) {
        return Ok(Expected::Refused(3));
    }
    if let Some(n) = reading.beyond {
        return Ok(Expected::Refused(n));
    }
    let circuit = match parse(format, source) {
        Ok(circuit) => circuit,
        Err(error) => return number(format, &error).map(Expected::Refused).ok_or_else(|| format!("a message of the reference without a number: {error}")),
    };
    if (circuit.nodes.len(), circuit.outputs.len()) != (reading.node_names.len(), reading.output_names.len()) {
        return Err("the records that were asked for are not the reference's".to_owned());
    }
    let mut nodes = Vec::with_capacity(circuit.nodes.len() * 9);
    for (node, name) in circuit.nodes.iter().zip(&reading.node_names) {
        let letter = if matches!(node, BoolNode::Input { .. }) { "i_" } else { "w_" };
        if spelled(&reading.joined, *name, letter) != node.name().as_bytes() {
            return Err(format!("the words of a name don't spell the reference's: {}", node.name()));
        }
        nodes.extend(node_words(node, *name));
    }
    let mut outputs = Vec::with_capacity(circuit.outputs.len() * 5);
    for ((spelling, wire), name) in circuit.outputs.iter().zip(&reading.output_names) {
        if spelled(&reading.joined, *name, "") != spelling.as_bytes() {
            return Err(format!("the words of an output's name don't spell the reference's: {spelling}"));
        }
        outputs.extend(output_words(wire, *name));
    }
    Ok(Expected::Circuit { circuit: Box::new(circuit), joined: reading.joined, nodes, outputs })
}
