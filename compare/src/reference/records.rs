//! What the reference makes of a text, as 01's records: the joined text, the words of each name, and the places that are asked for
//! up to the end or the refusal. The reference's own helpers are used; whether it refuses, and with what, is left to it.
use super::*;
use std::collections::HashSet;

/// Records asked for up to the end of the reading.
#[derive(Clone, Copy, Debug, Default, PartialEq, Eq)]
pub struct Places {
    pub nodes: usize,
    pub names: usize,
    pub outputs: usize,
    pub wires: usize,
}

#[derive(Default)]
pub struct Reading {
    pub joined: Vec<u8>,
    pub node_names: Vec<[usize; 4]>,
    pub output_names: Vec<[usize; 4]>,
    pub places: Places,
    /// 01's number where the reference cannot be asked: a sum past 64 bits, or more wires than it can hold.
    pub beyond: Option<usize>,
}

/// 01: areas are used up to so many records.
pub const MOST: usize = 1_048_576;

impl Reading {
    fn node(&mut self, name: [usize; 4]) {
        self.node_names.push(name);
        self.places.nodes += 1;
    }

    fn output(&mut self, name: [usize; 4]) {
        self.output_names.push(name);
        self.places.outputs += 1;
    }

    /// "Each joined line goes into the joined area, followed by byte 10": where each line starts.
    fn join(&mut self, lines: &[String]) -> Vec<usize> {
        lines
            .iter()
            .map(|line| {
                let start = self.joined.len();
                self.joined.extend_from_slice(line.as_bytes());
                self.joined.push(10);
                start
            })
            .collect()
    }
}

/// The words of a name: a part of a line that starts at `start`, and its chain step, 0 if there is none.
fn stretch(start: usize, line: &str, part: &str, step: usize) -> [usize; 4] {
    let inside = part.as_ptr() as usize - line.as_ptr() as usize;
    [if step == 0 { 1 } else { 2 }, start + inside, part.len(), step]
}

pub fn blif(source: &str) -> Reading {
    let lines = logical_lines(source);
    let mut reading = Reading::default();
    let starts = reading.join(&lines);
    let mut defined: HashSet<&str> = HashSet::new();
    let mut i = 0;
    while i < lines.len() {
        let (line, start) = (lines[i].as_str(), starts[i]);
        let words: Vec<&str> = line.split_whitespace().collect();
        i += 1;
        match words.first().copied().unwrap_or(".end") {
            ".model" | ".end" => {}
            ".inputs" => {
                for word in &words[1..] {
                    if !defined.insert(word) {
                        return reading;
                    }
                    reading.node(stretch(start, line, word, 0));
                    reading.places.names += 1;
                }
            }
            ".outputs" => words[1..].iter().for_each(|word| reading.output(stretch(start, line, word, 0))),
            ".names" => {
                let Some((output, inputs)) = words[1..].split_last() else { return reading };
                if defined.contains(output) || inputs.len() > 2 || inputs.iter().any(|name| !defined.contains(name)) {
                    return reading;
                }
                let rows: Vec<String> = lines[i..].iter().take_while(|line| !line.starts_with('.')).cloned().collect();
                i += rows.len();
                let rows: Vec<String> = rows.into_iter().filter(|row| !row.is_empty()).collect();
                let Ok(table) = parse_cover(inputs.len(), &rows) else { return reading };
                let alias = inputs.len() == 1 && table == [0, 1];
                if !inputs.is_empty() && !alias {
                    reading.node(stretch(start, line, output, 0));
                }
                reading.places.names += 1;
                defined.insert(output);
            }
            _ => return reading,
        }
    }
    reading
}

pub fn bench(source: &str) -> Reading {
    let lines = logical_lines(source);
    let mut reading = Reading::default();
    let starts = reading.join(&lines);
    let mut defined: HashSet<&str> = HashSet::from(["FALSE", "TRUE"]);
    for (line, start) in lines.iter().zip(starts) {
        if let Some((output, expression)) = line.split_once('=') {
            let output = output.trim();
            if output.is_empty() || defined.contains(output) {
                return reading;
            }
            let Ok((operation, names)) = parse_bench_invocation(expression) else { return reading };
            if names.iter().any(|name| !defined.contains(name)) {
                return reading;
            }
            let mut lowered = BoolCircuit::default();
            if lower_bench_gate(&mut lowered, output, &operation, &vec![BoolWire::Const(false); names.len()]).is_err() {
                return reading;
            }
            let cells = lowered.nodes.len();
            for step in 1..=cells {
                reading.node(stretch(start, line, output, if step < cells { step } else { 0 }));
            }
            reading.places.names += 1;
            defined.insert(output);
            continue;
        }
        let Ok((declaration, names)) = parse_bench_invocation(line) else { return reading };
        let [name] = names[..] else { return reading };
        match declaration.as_str() {
            "INPUT" => {
                if !defined.insert(name) {
                    return reading;
                }
                reading.node(stretch(start, line, name, 0));
                reading.places.names += 1;
            }
            "OUTPUT" => reading.output(stretch(start, line, name, 0)),
            _ => return reading,
        }
    }
    reading
}

fn total(widths: &[usize]) -> u128 {
    widths.iter().map(|width| *width as u128).sum()
}

pub fn bristol(source: &str) -> Reading {
    let mut reading = Reading::default();
    let lines: Vec<&str> = source.lines().map(|line| line.split('#').next().unwrap_or("").trim()).filter(|line| !line.is_empty()).collect();
    if lines.len() < 3 {
        return reading;
    }
    let header: Vec<Vec<usize>> = lines[..3].iter().map_while(|line| parse_usize_words(line).ok()).collect();
    let [first, inputs, outputs] = &header[..] else { return reading };
    let [gates, wires] = first[..] else { return reading };
    if inputs[0] != inputs.len() - 1 || outputs[0] != outputs.len() - 1 {
        // both sides may have a sum past 64 bits before the fault is seen, and the number is the same
        if total(&inputs[1..]).max(total(&outputs[1..])) > usize::MAX as u128 {
            reading.beyond = Some(11);
        }
        return reading;
    }
    let sum = total(&inputs[1..]) + total(&outputs[1..]);
    if sum > wires as u128 {
        if sum > usize::MAX as u128 {
            reading.beyond = Some(11);
        }
        return reading;
    }
    let (input_count, output_count) = (total(&inputs[1..]) as usize, total(&outputs[1..]) as usize);
    reading.places.wires = wires;
    if wires > MOST {
        reading.beyond = Some(3);
        return reading;
    }
    (0..input_count).for_each(|wire| reading.node([3, wire, 0, 0]));
    let mut driven: HashSet<usize> = (0..input_count).collect();
    for line in &lines[3..] {
        if !bristol_row(&mut reading, &mut driven, wires, line) {
            return reading;
        }
    }
    if lines.len() - 3 != gates {
        return reading;
    }
    for wire in wires - output_count..wires {
        if !driven.contains(&wire) {
            return reading;
        }
        reading.output([3, wire, 0, 0]);
    }
    reading
}

/// A row of a Bristol text; whether reading goes on.
fn bristol_row(reading: &mut Reading, driven: &mut HashSet<usize>, wires: usize, line: &str) -> bool {
    let words: Vec<&str> = line.split_whitespace().collect();
    let number = |word: &str| word.parse::<usize>().ok();
    if words.len() < 4 {
        return false;
    }
    let (Some(ins), Some(outs)) = (number(words[0]), number(words[1])) else { return false };
    let width = 3 + ins as u128 + outs as u128;
    if width != words.len() as u128 {
        if width > usize::MAX as u128 {
            reading.beyond = Some(9);
        }
        return false;
    }
    if outs != 1 {
        return false;
    }
    let Some(read) = words[2..2 + ins].iter().map(|word| number(word)).collect::<Option<Vec<usize>>>() else { return false };
    let Some(out) = number(words[2 + ins]) else { return false };
    if out >= wires || read.iter().any(|wire| !driven.contains(wire)) {
        return false;
    }
    let operation = words[words.len() - 1].to_ascii_uppercase();
    if ["EQ", "EQW", "BUF"].contains(&operation.as_str()) {
        if ins != 1 {
            return false;
        }
    } else {
        if bristol_truth_table(&operation, ins).is_err() {
            return false;
        }
        reading.node([3, out, 0, 0]);
    }
    driven.insert(out)
}
