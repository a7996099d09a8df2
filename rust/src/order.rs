//! The circuit check and the order of the cells.
use crate::archive;
use crate::circuit::BoolCircuit;
use crate::records::{Records, records};
use crate::refusal::Refusal;

/// Keys as three 32-bit numbers for each node, in the same order as the given ones; only the cells' are looked at.
fn packed_keys(circuit: &BoolCircuit, mut key: impl FnMut(usize) -> (usize, usize, usize)) -> Vec<u32> {
    let given: Vec<(usize, (usize, usize, usize))> = circuit.gate_ids().map(|id| (id, key(id))).collect();
    let mut keys = vec![0; 3 * circuit.nodes.len()];
    let small = |n: usize| u32::try_from(n).ok();
    if let Some(all) = given.iter().map(|(_, k)| Some([small(k.0)?, small(k.1)?, small(k.2)?])).collect::<Option<Vec<_>>>() {
        for ((id, _), numbers) in given.iter().zip(all) {
            keys[3 * id..3 * id + 3].copy_from_slice(&numbers);
        }
        return keys;
    }
    // a number of more than 32 bits: each key's place among the sorted ones, in two numbers
    let mut sorted: Vec<_> = given.iter().map(|(_, k)| *k).collect();
    sorted.sort_unstable();
    for (id, k) in given {
        let place = sorted.partition_point(|other| *other < k) as u64;
        keys[3 * id..3 * id + 3].copy_from_slice(&[(place >> 32) as u32, place as u32, 0]);
    }
    keys
}

impl BoolCircuit {
    /// Whether the circuit obeys the circuit rules (15) and every node reads earlier ones alone (16).
    pub fn validate_topological(&self) -> Result<(), Refusal> {
        let Records { nodes, outputs, .. } = records(self);
        archive::validate_topological(&nodes, &outputs).map_err(Refusal::of)
    }

    /// An order of the cells, each after those that it reads: among the `window` smallest cells that are ready the one of the greatest key
    /// is next, the smallest of them on equal keys. `key` is asked once for each cell. Forward reads are allowed, a circle is 17.
    pub fn scheduled_gates_by_key<F>(&self, window: usize, key: F) -> Result<Vec<usize>, Refusal>
    where
        F: FnMut(usize) -> (usize, usize, usize),
    {
        let Records { nodes, outputs, .. } = records(self);
        let keys = packed_keys(self, key);
        let count = self.nodes.len();
        let (mut ready, mut successors, mut order) = (vec![0; 3 * count], vec![0; 2 * count + 1], vec![0; count]);
        let cells = archive::scheduled_gates_by_key(&nodes, &outputs, window, &keys, &mut ready, &mut successors, &mut order)
            .map_err(Refusal::of)?;
        order.truncate(cells);
        Ok(order)
    }
}
