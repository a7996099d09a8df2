//! The static library's calls over areas of this program, each with old contents and a guard behind it.
use crate::expected::Lent;
use crate::generate::Format;

#[link(name = "relay", kind = "static")]
unsafe extern "C" {
    fn relay_parse_blif(text: *const u8, text_len: usize, joined: *mut u8, joined_len: usize, nodes: *mut usize, nodes_len: usize, names: *mut usize, names_len: usize, outputs: *mut usize, outputs_len: usize, node_count: *mut usize, output_count: *mut usize) -> usize;
    fn relay_parse_bench(text: *const u8, text_len: usize, joined: *mut u8, joined_len: usize, nodes: *mut usize, nodes_len: usize, names: *mut usize, names_len: usize, outputs: *mut usize, outputs_len: usize, node_count: *mut usize, output_count: *mut usize) -> usize;
    fn relay_parse_bristol(text: *const u8, text_len: usize, nodes: *mut usize, nodes_len: usize, outputs: *mut usize, outputs_len: usize, wires: *mut usize, wires_len: usize, node_count: *mut usize, output_count: *mut usize) -> usize;
    fn relay_validate_topological(nodes: *const usize, nodes_len: usize, outputs: *const usize, outputs_len: usize) -> usize;
    fn relay_scheduled_gates_by_key(nodes: *const usize, nodes_len: usize, outputs: *const usize, outputs_len: usize, window: usize, keys: *const u32, keys_len: usize, ready: *mut usize, ready_len: usize, successors: *mut usize, successors_len: usize, order: *mut usize, order_len: usize, cell_count: *mut usize) -> usize;
    fn relay_evaluate(nodes: *const usize, nodes_len: usize, outputs: *const usize, outputs_len: usize, assignment: *const u8, assignment_len: usize, values: *mut u8, values_len: usize, answers: *mut u8, answers_len: usize, output_count: *mut usize) -> usize;
    fn relay_run(nodes: *const usize, nodes_len: usize, outputs: *const usize, outputs_len: usize, order: *const usize, order_len: usize, assignment: *const u8, assignment_len: usize, values: *mut u8, values_len: usize, answers: *mut u8, answers_len: usize, cell_count: *mut usize) -> usize;
    fn relay_exhaustive_inputs(nodes: *const usize, nodes_len: usize, outputs: *const usize, outputs_len: usize, number: usize, assignment: *mut u8, assignment_len: usize, input_count: *mut usize) -> usize;
}

const GUARD: usize = 16;

/// Memory of which the first `len` elements are lent; those behind must stay.
pub struct Area<T> {
    memory: Vec<T>,
    len: usize,
    old: T,
}

impl<T: Copy + PartialEq + Default> Area<T> {
    pub fn new(len: usize, old: T) -> Self {
        let mut area = Self { memory: Vec::new(), len, old };
        area.lend(len, old);
        area
    }

    /// So many elements, with old contents.
    fn lend(&mut self, len: usize, old: T) {
        if self.memory.len() < len + GUARD {
            self.memory.resize(len + GUARD, old);
        }
        (self.len, self.old) = (len, old);
        self.memory[..len + GUARD].fill(old);
    }

    fn pointer(&mut self) -> *mut T {
        self.memory.as_mut_ptr()
    }

    /// Whether the area has these elements, then zeros, and nothing was written behind it.
    pub fn has(&self, elements: &[T]) -> bool {
        elements.len() <= self.len
            && self.memory[..elements.len()] == *elements
            && self.memory[elements.len()..self.len].iter().all(|e| *e == T::default())
            && self.memory[self.len..self.len + GUARD].iter().all(|e| *e == self.old)
    }

    pub fn first(&self, count: usize) -> &[T] {
        &self.memory[..count.min(self.len)]
    }
}

/// What a call answers: the refusal's number, and the count through its last reference.
pub type Answer = (usize, usize);

/// The areas of the readers.
pub struct Areas {
    pub joined: Area<u8>,
    pub nodes: Area<usize>,
    pub names: Area<usize>,
    pub outputs: Area<usize>,
    pub wires: Area<usize>,
}

impl Areas {
    pub fn new() -> Self {
        let words = || Area::new(0, 0usize);
        Self { joined: Area::new(0, 0u8), nodes: words(), names: words(), outputs: words(), wires: words() }
    }

    /// A text read into areas of these lengths, all of whose elements were `old`: the number and both counts.
    pub fn read(&mut self, format: Format, text: &[u8], lent: &Lent, old: usize) -> (usize, usize, usize) {
        let (mut nodes, mut outputs) = (old, old);
        let Areas { joined: j, nodes: n, names: m, outputs: o, wires: w } = self;
        n.lend(lent.nodes, old);
        o.lend(lent.outputs, old);
        let number = unsafe {
            if format == Format::Bristol {
                w.lend(lent.wires, old);
                relay_parse_bristol(text.as_ptr(), text.len(), n.pointer(), n.len, o.pointer(), o.len, w.pointer(), w.len, &mut nodes, &mut outputs)
            } else {
                j.lend(lent.joined, old as u8);
                m.lend(lent.names, old);
                let call = if format == Format::Blif { relay_parse_blif } else { relay_parse_bench };
                call(text.as_ptr(), text.len(), j.pointer(), j.len, n.pointer(), n.len, m.pointer(), m.len, o.pointer(), o.len, &mut nodes, &mut outputs)
            }
        };
        (number, nodes, outputs)
    }

    /// Whether the areas that the last call wrote to hold just this; work areas are zero.
    pub fn hold(&self, format: Format, joined: &[u8], nodes: &[usize], outputs: &[usize]) -> bool {
        let own = if format == Format::Bristol { self.wires.has(&[]) } else { self.joined.has(joined) && self.names.has(&[]) };
        own && self.nodes.has(nodes) && self.outputs.has(outputs)
    }
}

/// A circuit's records and nothing else, as the calls below take it.
#[derive(Clone, Copy)]
pub struct Records<'a> {
    pub nodes: &'a [usize],
    pub outputs: &'a [usize],
}

pub fn validate(records: Records) -> usize {
    let Records { nodes: n, outputs: o } = records;
    unsafe { relay_validate_topological(n.as_ptr(), n.len(), o.as_ptr(), o.len()) }
}

/// The areas `ready`, `successors` and `order`.
pub fn schedule(records: Records, window: usize, keys: &[u32], areas: [&mut Area<usize>; 3]) -> Answer {
    let Records { nodes: n, outputs: o } = records;
    let [ready, successors, order] = areas;
    let mut cells = 77;
    let number = unsafe {
        relay_scheduled_gates_by_key(n.as_ptr(), n.len(), o.as_ptr(), o.len(), window, keys.as_ptr(), keys.len(), ready.pointer(), ready.len, successors.pointer(), successors.len, order.pointer(), order.len, &mut cells)
    };
    (number, cells)
}

pub fn evaluate(records: Records, assignment: &[u8], values: &mut Area<u8>, answers: &mut Area<u8>) -> Answer {
    let Records { nodes: n, outputs: o } = records;
    let mut count = 77;
    let number = unsafe { relay_evaluate(n.as_ptr(), n.len(), o.as_ptr(), o.len(), assignment.as_ptr(), assignment.len(), values.pointer(), values.len, answers.pointer(), answers.len, &mut count) };
    (number, count)
}

pub fn run(records: Records, order: &[usize], assignment: &[u8], values: &mut Area<u8>, answers: &mut Area<u8>) -> Answer {
    let Records { nodes: n, outputs: o } = records;
    let mut cells = 77;
    let number = unsafe { relay_run(n.as_ptr(), n.len(), o.as_ptr(), o.len(), order.as_ptr(), order.len(), assignment.as_ptr(), assignment.len(), values.pointer(), values.len, answers.pointer(), answers.len, &mut cells) };
    (number, cells)
}

pub fn numbered(records: Records, number: usize, assignment: &mut Area<u8>) -> Answer {
    let Records { nodes: n, outputs: o } = records;
    let mut count = 77;
    let number = unsafe { relay_exhaustive_inputs(n.as_ptr(), n.len(), o.as_ptr(), o.len(), number, assignment.pointer(), assignment.len, &mut count) };
    (number, count)
}
