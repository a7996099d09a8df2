//! A circuit as structs of the caller's.

/// What a cell or an output reads.
#[derive(Clone, Copy, Debug, Eq, Hash, PartialEq)]
pub enum BoolWire {
    /// A constant.
    Const(bool),
    /// The node of this number.
    Node(usize),
}

/// An input, or a cell with a table.
#[derive(Clone, Debug, Eq, PartialEq)]
pub enum BoolNode {
    /// An input of the circuit.
    Input {
        /// Its name.
        name: String,
    },
    /// A cell: one or two wires, and an entry of 0 or 1 for each setting of them, the first wire being the most significant bit.
    Lut {
        /// Its name.
        name: String,
        /// The wires that it reads.
        inputs: Vec<BoolWire>,
        /// Two entries for one wire, four for two.
        table: Vec<u8>,
    },
}

impl BoolNode {
    /// The node's name.
    pub fn name(&self) -> &str {
        match self {
            BoolNode::Input { name } => name,
            BoolNode::Lut { name, .. } => name,
        }
    }

    /// The wires that the node reads: none for an input.
    pub fn inputs(&self) -> &[BoolWire] {
        match self {
            BoolNode::Input { .. } => &[],
            BoolNode::Lut { inputs, .. } => inputs,
        }
    }

    pub(crate) fn is_input(&self) -> bool {
        matches!(self, BoolNode::Input { .. })
    }
}

/// A circuit: nodes in storage order, the numbers of the inputs among them, and named outputs.
///
/// One that was read obeys the circuit rules, and every node of it reads earlier ones alone. One that is put together by hand is checked
/// by each call; `inputs` then has to list the input nodes in storage order.
#[derive(Clone, Debug, Default, Eq, PartialEq)]
pub struct BoolCircuit {
    /// Inputs and cells.
    pub nodes: Vec<BoolNode>,
    /// The node numbers of the inputs, rising.
    pub inputs: Vec<usize>,
    /// Name and wire of each output.
    pub outputs: Vec<(String, BoolWire)>,
}

impl BoolCircuit {
    /// The numbers of the cells in storage order.
    pub fn gate_ids(&self) -> impl Iterator<Item = usize> + '_ {
        (0..self.nodes.len()).filter(|id| !self.nodes[*id].is_input())
    }

    /// The numbers of the cells in storage order, as a list.
    pub fn topological_gates(&self) -> Vec<usize> {
        self.gate_ids().collect()
    }

    /// The names of the inputs in storage order.
    pub fn input_names(&self) -> impl Iterator<Item = &str> + '_ {
        self.nodes.iter().filter(|node| node.is_input()).map(BoolNode::name)
    }
}
