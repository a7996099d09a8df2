//! Check, orders, evaluations, runs and numbered assignments of an accepted circuit, on both sides, and 01's refusals of these calls.
use crate::library::{self, Area, Records};
use crate::reference::{BoolCircuit, BoolNode, BoolWire};
use std::collections::HashMap;

pub fn hash(x: usize, seed: usize) -> usize {
    let mut z = (x + 1).wrapping_mul(0x9E37_79B9_7F4A_7C15).wrapping_add(seed);
    z ^= z >> 29;
    z.wrapping_mul(0xBF58_476D_1CE4_E5B9) >> 40
}

/// Keys for so many nodes that differ in the last place.
pub fn key_list(count: usize, seed: usize) -> Vec<u32> {
    (0..count).flat_map(|id| [hash(id, seed) % 3, hash(id, seed + 9) % 5, id]).map(|n| n as u32).collect()
}

/// Areas for a schedule of so many nodes.
pub fn schedule_areas(count: usize) -> [Area<usize>; 3] {
    [Area::new(count * 3, 9), Area::new(count * 2 + 1, 9), Area::new(count, 5)]
}

/// The order on both sides; `None` if both say that cells read in a circle. What the reference takes on equal keys depends on
/// `select_nth_unstable`, and 01 has "on equal keys the smallest number": so the reference's keys go on with the number, turned round,
/// and differ, and both must take the same cells.
pub fn order(circuit: &BoolCircuit, records: Records, window: usize, keys: &[u32]) -> Result<Option<Vec<usize>>, String> {
    let place = |at: usize| keys[at] as usize;
    let theirs = circuit.scheduled_gates_by_key(window, |id| (place(3 * id), place(3 * id + 1) << 32 | place(3 * id + 2), usize::MAX - id));
    let [mut ready, mut successors, mut order] = schedule_areas(circuit.nodes.len());
    let (number, cells) = library::schedule(records, window, keys, [&mut ready, &mut successors, &mut order]);
    let (expected, list) = match &theirs {
        Ok(list) => ((0, list.len()), &list[..]),
        Err(_) => ((17, 0), &[][..]),
    };
    if (number, cells) != expected || !order.has(list) || !ready.has(&[]) || !successors.has(&[]) {
        let ours = order.first(cells);
        let same = list.iter().zip(ours).take_while(|(a, b)| a == b).count();
        let rest = |list: &[usize]| list[same..].iter().take(12).copied().collect::<Vec<usize>>();
        return Err(format!("orders differ at window {window}: {expected:?} and {:?}, from place {same} on {:?} and {:?}", (number, cells), rest(list), rest(ours)));
    }
    Ok(theirs.ok())
}

pub fn assignments(circuit: &BoolCircuit, records: Records, list: &[usize]) -> Result<(), String> {
    let (count, outs) = (circuit.nodes.len(), circuit.outputs.len());
    let inputs: Vec<&str> = circuit.nodes.iter().filter_map(|n| match n { BoolNode::Input { name } => Some(name.as_str()), _ => None }).collect();
    let small = inputs.len() < 4;
    for a in 0..if small { 1usize << inputs.len() } else { 16 } {
        let wide = inputs.len() > 20;
        let number = if small { a } else { hash(a, 77) % (1usize << inputs.len().min(20)) };
        let bits: Vec<u8> = (0..inputs.len()).map(|p| if wide { (hash(p, a) & 1) as u8 } else { ((number >> (inputs.len() - p - 1)) & 1) as u8 }).collect();
        let mut assignment = Area::new(inputs.len(), 8u8);
        let answer = library::numbered(records, number, &mut assignment);
        if if wide { answer != (21, 0) || !assignment.has(&[]) } else { answer != (0, inputs.len()) || !assignment.has(&bits) } {
            return Err(format!("assignment {number} differs: {answer:?}"));
        }
        let named: HashMap<String, bool> = inputs.iter().zip(&bits).map(|(name, bit)| ((*name).to_owned(), *bit == 1)).collect();
        let theirs: Vec<u8> = circuit.evaluate(&named)?.iter().map(|(_, v)| u8::from(*v)).collect();
        let (mut values, mut answers) = (Area::new(count, 255u8), Area::new(outs, 9u8));
        let answer = library::evaluate(records, &bits, &mut values, &mut answers);
        if answer != (0, outs) || !answers.has(&theirs) || !values.has(&[]) {
            return Err(format!("evaluate differs on {bits:?}: {theirs:?} and {answer:?}, {:?}", answers.first(outs)));
        }
        let (mut values, mut answers) = (Area::new(count, 255u8), Area::new(outs, 9u8));
        let answer = library::run(records, list, &bits, &mut values, &mut answers);
        if answer != (0, list.len()) || !answers.has(&theirs) || !values.has(&[]) {
            return Err(format!("run differs on {bits:?}: {theirs:?} and {answer:?}, {:?}", answers.first(outs)));
        }
    }
    Ok(())
}

/// 01: "A cell gives b when every filling of its unknown positions picks b, else 2"; the outputs of the storage order.
pub fn storage_order(circuit: &BoolCircuit, assignment: &[u8]) -> Vec<u8> {
    let (mut values, mut given) = (Vec::new(), assignment.iter());
    let value = |wire: &BoolWire, values: &[u8]| match wire {
        BoolWire::Const(bit) => u8::from(*bit),
        BoolWire::Node(id) => values[*id],
    };
    for node in &circuit.nodes {
        let answer = match node {
            BoolNode::Input { .. } => *given.next().unwrap_or(&2),
            BoolNode::Lut { inputs, table, .. } => {
                let known: Vec<u8> = inputs.iter().map(|wire| value(wire, &values)).collect();
                let fits = |j: usize| known.iter().enumerate().all(|(p, v)| *v == 2 || usize::from(*v) == (j >> (known.len() - p - 1)) & 1);
                let picked: Vec<u8> = (0..table.len()).filter(|j| fits(*j)).map(|j| table[j]).collect();
                if picked.iter().all(|bit| *bit == picked[0]) { picked[0] } else { 2 }
            }
        };
        values.push(answer);
    }
    circuit.outputs.iter().map(|(_, wire)| value(wire, &values)).collect()
}

/// Runs with unknown inputs: the cell rule's outputs; and where one is known, the reference's under fillings of the unknown inputs.
pub fn unknowns(circuit: &BoolCircuit, records: Records, list: &[usize]) -> Result<(), String> {
    let (count, outs) = (circuit.nodes.len(), circuit.outputs.len());
    let inputs: Vec<&str> = circuit.nodes.iter().filter_map(|n| match n { BoolNode::Input { name } => Some(name.as_str()), _ => None }).collect();
    for a in 0..6 {
        let assignment: Vec<u8> = (0..inputs.len()).map(|p| if a == 0 { 2 } else { (hash(p, a) % 3) as u8 }).collect();
        let theirs = storage_order(circuit, &assignment);
        let (mut values, mut answers) = (Area::new(count, (a % 4) as u8), Area::new(outs, 9u8));
        let answer = library::run(records, list, &assignment, &mut values, &mut answers);
        if answer != (0, list.len()) || !answers.has(&theirs) || !values.has(&[]) {
            return Err(format!("run differs on {assignment:?}: {theirs:?} and {answer:?}, {:?}", answers.first(outs)));
        }
        for filling in 0..4 {
            let bit = |p: usize, v: u8| if v == 2 { hash(p, filling + 50) & 1 == 1 } else { v == 1 };
            let named: HashMap<String, bool> = inputs.iter().enumerate().map(|(p, name)| ((*name).to_owned(), bit(p, assignment[p]))).collect();
            if circuit.evaluate(&named)?.iter().zip(&theirs).any(|((_, bit), known)| *known != 2 && *known != u8::from(*bit)) {
                return Err(format!("a known output changes under a filling of {assignment:?}"));
            }
        }
        if assignment.contains(&2) {
            let (mut values, mut answers) = (Area::new(count, 7u8), Area::new(outs, 7u8));
            let answer = library::evaluate(records, &assignment, &mut values, &mut answers);
            if answer != (19, 0) || !values.has(&[]) || !answers.has(&[]) {
                return Err(format!("evaluate on {assignment:?}: {answer:?}"));
            }
        }
    }
    Ok(())
}

/// 01's refusals of these calls on a circuit that was read: each with zeros in its areas.
pub fn refusals(circuit: &BoolCircuit, records: Records, list: &[usize]) -> Result<(), String> {
    let (count, outs, cells) = (circuit.nodes.len(), circuit.outputs.len(), list.len());
    let inputs = count - cells;
    let keys = key_list(count, 1);
    let mut scheduled: Vec<(&str, usize, usize, usize, [usize; 3])> = vec![("window 0", 18, 0, keys.len(), [count * 3, count * 2 + 1, count])];
    scheduled.push(("short successors", 3, 2, keys.len(), [count * 3, count * 2, count]));
    if count > 0 {
        scheduled.push(("short keys", 19, 2, keys.len() - 1, [count * 3, count * 2 + 1, count]));
        scheduled.push(("short ready", 3, 2, keys.len(), [count * 3 - 1, count * 2 + 1, count]));
        scheduled.push(("short order", 3, 2, keys.len(), [count * 3, count * 2 + 1, count - 1]));
    }
    for (what, expected, window, key_count, sizes) in scheduled {
        let [mut ready, mut successors, mut order] = sizes.map(|size| Area::new(size, 9usize));
        let answer = library::schedule(records, window, &keys[..key_count], [&mut ready, &mut successors, &mut order]);
        if answer != (expected, 0) || !ready.has(&[]) || !successors.has(&[]) || !order.has(&[]) {
            return Err(format!("schedule, {what}: {answer:?}"));
        }
    }
    let known = vec![1u8; inputs];
    let mut odd = known.clone();
    odd.push(0);
    let mut above = known.clone();
    above.iter_mut().take(1).for_each(|value| *value = 3);
    let mut doubled = list.to_vec();
    doubled.extend(list.first());
    let mut ran: Vec<(&str, usize, &[usize], &[u8], usize, usize)> = vec![("long assignment", 19, list, &odd, count, outs)];
    if inputs > 0 {
        ran.push(("short assignment", 19, list, &known[1..], count, outs));
        ran.push(("value above 2", 19, list, &above, count, outs));
    }
    if cells > 0 {
        ran.push(("a cell twice", 20, &doubled, &known, count, outs));
        ran.push(("a cell left out", 20, &list[1..], &known, count, outs));
        ran.push(("20 before 3", 20, &list[1..], &known, count - 1, outs));
    }
    if count > 0 {
        ran.push(("short values", 3, list, &known, count - 1, outs));
    }
    if outs > 0 {
        ran.push(("short answers", 3, list, &known, count, outs - 1));
    }
    for (what, expected, order, assignment, value_count, answer_count) in ran {
        let (mut values, mut answers) = (Area::new(value_count, 7u8), Area::new(answer_count, 7u8));
        let answer = library::run(records, order, assignment, &mut values, &mut answers);
        if answer != (expected, 0) || !values.has(&[]) || !answers.has(&[]) {
            return Err(format!("run, {what}: {answer:?}"));
        }
        if expected == 20 {
            continue;
        }
        let (mut values, mut answers) = (Area::new(value_count, 7u8), Area::new(answer_count, 7u8));
        let answer = library::evaluate(records, assignment, &mut values, &mut answers);
        if answer != (expected, 0) || !values.has(&[]) || !answers.has(&[]) {
            return Err(format!("evaluate, {what}: {answer:?}"));
        }
    }
    if inputs <= 20 {
        let mut assignment = Area::new(inputs, 7u8);
        let answer = library::numbered(records, 1 << inputs, &mut assignment);
        if answer != (19, 0) || !assignment.has(&[]) {
            return Err(format!("assignment number too large: {answer:?}"));
        }
    }
    Ok(())
}

/// More nodes than this and the reference's schedule takes too long.
const MOST_NODES: usize = 3000;

pub fn compare(circuit: &BoolCircuit, records: Records) -> Result<(), String> {
    let number = library::validate(records);
    if number != 0 {
        return Err(format!("a circuit that was read is refused by the check: {number}"));
    }
    if circuit.nodes.len() > MOST_NODES {
        return Ok(());
    }
    let mut list = Vec::new();
    for (window, seed) in [(1, 1), (2, 2), (3, 3), (usize::MAX, 4)] {
        list = order(circuit, records, window, &key_list(circuit.nodes.len(), seed))?.ok_or_else(|| "a circle in a circuit that was read".to_owned())?;
    }
    assignments(circuit, records, &list)?;
    unknowns(circuit, records, &list)?;
    refusals(circuit, records, &list)
}
