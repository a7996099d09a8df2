//! Random circuits of few nodes that no reader makes: forward reads, cells that read themselves or in a circle, broken records.
use crate::expected::{node_words, wire_word};
use crate::generate::Random;
use crate::library::{self, Area, Records};
use crate::reference::{BoolCircuit, BoolNode, BoolWire};
use crate::runs;

fn circuit(random: &mut Random) -> BoolCircuit {
    let count = random.below(12) + 1;
    let forward = random.below(3) * 10;
    let mut circuit = BoolCircuit::default();
    for id in 0..count {
        if random.below(4) == 0 {
            circuit.inputs.push(id);
            circuit.nodes.push(BoolNode::Input { name: format!("i{id}") });
            continue;
        }
        let width = 1 + random.below(2);
        let inputs = (0..width)
            .map(|_| match random.below(100) {
                n if n < forward => BoolWire::Node(random.below(count)),
                n if n < 90 && id > 0 => BoolWire::Node(random.below(id)),
                n => BoolWire::Const(n % 2 == 0),
            })
            .collect();
        let table = (0..1 << width).map(|_| random.below(2) as u8).collect();
        circuit.nodes.push(BoolNode::Lut { name: format!("w{id}"), inputs, table });
    }
    for k in 0..random.below(3) {
        circuit.outputs.push((format!("o{k}"), BoolWire::Node(random.below(count))));
    }
    circuit
}

/// The words of a circuit's records, as the library takes them.
pub fn words(circuit: &BoolCircuit) -> (Vec<usize>, Vec<usize>) {
    let nodes = circuit.nodes.iter().flat_map(|node| node_words(node, [3, 0, 0, 0])).collect();
    let outputs = circuit.outputs.iter().flat_map(|(_, wire)| [3, 0, 0, 0, wire_word(wire)]).collect();
    (nodes, outputs)
}

/// One word of the records, at a random place, changed so that 01's circuit rules are broken; `false` if that place has no such word.
pub fn break_record(random: &mut Random, nodes: &mut [usize], outputs: &mut [usize]) -> bool {
    let count = nodes.len() / 9;
    let record = random.below(count) * 9;
    let cell = nodes[record] == 2;
    let beyond = count + 2 + random.below(3);
    match random.below(6) {
        0 => nodes[record] = [0, 3, usize::MAX][random.below(3)],
        1 if cell => nodes[record + 1] = [0, 3, usize::MAX][random.below(3)],
        2 if cell => nodes[record + 2] |= 1 << (1 << nodes[record + 1]),
        3 if cell => nodes[record + 7] = beyond,
        4 if cell && nodes[record + 1] == 2 => nodes[record + 8] = [beyond, usize::MAX][random.below(2)],
        5 if !outputs.is_empty() => outputs[random.below(outputs.len() / 5) * 5 + 4] = beyond,
        _ => return false,
    }
    true
}

/// "Checking a circuit leaves both scans at the first forward read: 15, then 16": the number of the first fault, 0 if there is none.
fn first_fault(records: Records) -> usize {
    let count = records.nodes.len() / 9;
    for (id, record) in records.nodes.chunks(9).enumerate() {
        let [kind, width, table] = [record[0], record[1], record[2]];
        if kind == 1 {
            continue;
        }
        if kind != 2 || !(1..=2).contains(&width) || table >> (1 << width) != 0 {
            return 15;
        }
        // a node's wire is its number and 2
        for wire in &record[7..7 + width] {
            if *wire >= count + 2 {
                return 15;
            }
            if *wire >= id + 2 {
                return 16;
            }
        }
    }
    if records.outputs.chunks(5).any(|output| output[4] >= count + 2) { 15 } else { 0 }
}

/// A circuit with a fault in every call that makes the check: the number of the first fault, and zeros, whatever the order and the assignment.
pub fn faulty(records: Records, list: &[usize], assignment: &[u8]) -> Result<usize, String> {
    let (count, outs) = (records.nodes.len() / 9, records.outputs.len() / 5);
    let fault = first_fault(records);
    let areas = || (Area::new(count, 3u8), Area::new(outs, 3u8));
    let ((mut values, mut answers), (mut stored, mut given)) = (areas(), areas());
    let checked = library::validate(records);
    let evaluated = library::evaluate(records, assignment, &mut values, &mut answers);
    let ran = library::run(records, list, assignment, &mut stored, &mut given);
    let zero = [&values, &answers, &stored, &given].iter().all(|area| area.has(&[]));
    if fault == 0 || checked != fault || (evaluated, ran) != ((fault, 0), (fault, 0)) || !zero {
        return Err(format!("a fault, {fault}, is not refused alike: the check {checked}, evaluate {evaluated:?}, the run {ran:?}, zeros {zero}"));
    }
    Ok(fault)
}

/// A circuit with a broken record: 15 of the calls that look at every record, and the first fault of those that make the check.
pub fn broken(records: Records, list: &[usize], assignment: &[u8], keys: &[u32]) -> Result<(), String> {
    let count = records.nodes.len() / 9;
    faulty(records, list, assignment)?;
    for window in [0, 100] {
        let [mut ready, mut successors, mut order] = runs::schedule_areas(count);
        let answer = library::schedule(records, window, keys, [&mut ready, &mut successors, &mut order]);
        if answer != (15, 0) || !ready.has(&[]) || !successors.has(&[]) || !order.has(&[]) {
            return Err(format!("a broken circuit is ordered: {answer:?}"));
        }
    }
    let mut given = Area::new(count, 3u8);
    let answer = library::numbered(records, 0, &mut given);
    if answer != (15, 0) || !given.has(&[]) {
        return Err(format!("a broken circuit has assignments: {answer:?}"));
    }
    Ok(())
}

/// One random circuit on both sides: the check (16), orders (17), then a record of it broken (15). The answer of the schedule.
pub fn compare(random: &mut Random) -> Result<usize, String> {
    let circuit = circuit(random);
    let (mut nodes, mut outputs) = words(&circuit);
    let shown = |what: String| format!("{what}: {:?}, {:?}", circuit.nodes, circuit.outputs);
    let records = Records { nodes: &nodes, outputs: &outputs };
    let ordered = circuit.validate_topological().is_ok();
    let number = library::validate(records);
    if number != if ordered { 0 } else { 16 } {
        return Err(shown(format!("the check differs, {number}")));
    }
    let mut answer = 0;
    for (window, seed) in [(1, 1), (2, 5), (5, 6), (usize::MAX, 7)] {
        if runs::order(&circuit, records, window, &runs::key_list(circuit.nodes.len(), seed)).map_err(shown)?.is_none() {
            answer = 17;
        }
    }
    if !ordered {
        faulty(records, &[], &[]).map_err(shown)?;
    }
    if break_record(random, &mut nodes, &mut outputs) {
        broken(Records { nodes: &nodes, outputs: &outputs }, &[], &[], &[]).map_err(shown)?;
    }
    Ok(answer)
}
