//! A run in plain Rust, for comparison: the same checks and the same steps over the same records, with the indexing that Rust tests itself.
//! It is no part of the library.

const NODE_WORDS: usize = 9;
const OUTPUT_WORDS: usize = 5;
const WIRES_AT: usize = 7;
const CELL: usize = 2;
const UNKNOWN: u8 = 2;

pub struct Plain {
    answers: [u8; 144],
    values: Vec<u8>,
    marks: Vec<u64>,
}

/// The first `count` wires of a record, as words.
fn wires(record: &[usize]) -> &[usize] {
    let count = if record[0] == CELL { record[1].min(NODE_WORDS - WIRES_AT) } else { 0 };
    &record[WIRES_AT..WIRES_AT + count]
}

/// The node that a wire's word reads.
fn node(word: usize) -> Option<usize> {
    word.checked_sub(2)
}

/// The rules of a record, and that each of its wires is a constant or of an earlier node.
fn sound(record: &[usize], k: usize) -> bool {
    let broken = match (record[0], record[1]) {
        (1, _) => false,
        (CELL, 1 | 2) => record[2] >> (1 << record[1]) != 0,
        _ => true,
    };
    !broken && wires(record).iter().all(|word| node(*word).is_none_or(|read| read < k))
}

impl Plain {
    pub fn new(count: usize) -> Self {
        // an answer is b if every filling of the unknown positions picks b
        let answer = |table: usize, a: usize, b: usize| {
            let fillings = |value: usize| if value == 2 { vec![0, 1] } else { vec![value] };
            let picked: Vec<usize> = fillings(a).iter().flat_map(|a| fillings(b).into_iter().map(move |b| table >> (2 * a + b) & 1)).collect();
            if picked.iter().all(|bit| *bit == picked[0]) { picked[0] as u8 } else { UNKNOWN }
        };
        let answers = std::array::from_fn(|place| answer(place / 9, place / 3 % 3, place % 3));
        Self { answers, values: vec![0; count], marks: vec![0; count.div_ceil(64)] }
    }

    /// Each cell once, after the cells that it reads.
    fn fit(&mut self, nodes: &[usize], order: &[usize]) -> bool {
        self.marks.fill(0);
        for &x in order {
            let Some(record) = nodes.get(x * NODE_WORDS..(x + 1) * NODE_WORDS) else { return false };
            let waits = |read: usize| nodes[read * NODE_WORDS] == CELL && self.marks[read / 64] >> (read % 64) & 1 == 0;
            if record[0] != CELL || wires(record).iter().any(|word| node(*word).is_some_and(waits)) || !waits(x) {
                return false;
            }
            self.marks[x / 64] |= 1 << (x % 64);
        }
        true
    }

    fn value(&self, word: usize) -> u8 {
        match node(word) {
            Some(read) => self.values[read],
            None => word as u8,
        }
    }

    /// The outputs along the list; none where the circuit, the assignment or the list is refused.
    pub fn run(&mut self, nodes: &[usize], outputs: &[usize], order: &[usize], bits: &[u8], answers: &mut [u8]) -> Option<usize> {
        let count = nodes.len() / NODE_WORDS;
        if !nodes.chunks(NODE_WORDS).enumerate().all(|(k, record)| sound(record, k)) {
            return None;
        }
        if !outputs.chunks(OUTPUT_WORDS).all(|output| node(output[4]).is_none_or(|read| read < count)) {
            return None;
        }
        let inputs = nodes.chunks(NODE_WORDS).filter(|record| record[0] != CELL).count();
        if bits.len() != inputs || bits.iter().any(|bit| *bit > UNKNOWN) {
            return None;
        }
        if order.len() != count - inputs || !self.fit(nodes, order) || answers.len() < outputs.len() / OUTPUT_WORDS {
            return None;
        }
        let mut given = bits.iter();
        for (k, record) in nodes.chunks(NODE_WORDS).enumerate() {
            if record[0] != CELL {
                self.values[k] = *given.next()?;
            }
        }
        for &x in order {
            let record = &nodes[x * NODE_WORDS..(x + 1) * NODE_WORDS];
            let (first, second) = if record[1] == 2 {
                (self.value(record[WIRES_AT]), self.value(record[WIRES_AT + 1]))
            } else {
                (0, self.value(record[WIRES_AT]))
            };
            self.values[x] = self.answers[9 * record[2] + 3 * usize::from(first) + usize::from(second)];
        }
        answers.fill(0);
        for (answer, output) in answers.iter_mut().zip(outputs.chunks(OUTPUT_WORDS)) {
            *answer = self.value(output[4]);
        }
        self.values.fill(0);
        Some(order.len())
    }
}
