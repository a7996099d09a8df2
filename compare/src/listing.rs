//! The list programs: what each must print, from the reference's circuit and order, and what it prints.
use crate::expected::{expected, Expected, Lent, NAME_WORDS};
use crate::generate::Format;
use crate::reference::{BoolCircuit, BoolNode, BoolWire};
use std::io::{Read, Write};
use std::path::Path;
use std::process::{Command, Stdio};

/// 01: "at most 32,768 bytes (more: `refused 1`), with places for 1,024 nodes, names, outputs and wires each".
const MOST_BYTES: usize = 32_768;
const ROOM: Lent = Lent { joined: MOST_BYTES + 1, nodes: 1024 * 9, names: 1024 * NAME_WORDS, outputs: 1024 * 5, wires: 1024 };

fn wire(wire: &BoolWire) -> String {
    match wire {
        BoolWire::Const(value) => format!("c{}", u8::from(*value)),
        BoolWire::Node(id) => format!("n{id}"),
    }
}

/// "I: number, name. L: number, name, table, wires. O: name, wire. S: order for window 2, key (0, 0, node number)."
fn circuit_lines(circuit: &BoolCircuit) -> Result<String, String> {
    let mut text = format!("nodes {}\n", circuit.nodes.len());
    for (id, node) in circuit.nodes.iter().enumerate() {
        match node {
            BoolNode::Input { name } => text.push_str(&format!("I {id} {name}\n")),
            BoolNode::Lut { name, inputs, table } => {
                let packed: usize = table.iter().enumerate().map(|(j, bit)| usize::from(*bit) << j).sum();
                let wires: Vec<String> = inputs.iter().map(wire).collect();
                text.push_str(&format!("L {id} {name} {packed} {}\n", wires.join(" ")));
            }
        }
    }
    for (name, driver) in &circuit.outputs {
        text.push_str(&format!("O {name} {}\n", wire(driver)));
    }
    text.push('S');
    for id in circuit.scheduled_gates_by_key(2, |id| (0, 0, id))? {
        text.push_str(&format!(" {id}"));
    }
    text.push('\n');
    Ok(text)
}

/// The refusal's number, 0 for a circuit, and the bytes that the list program must print.
pub fn listing(format: Format, text: &[u8]) -> Result<(usize, Vec<u8>), String> {
    let answer = if text.len() > MOST_BYTES { Expected::Refused(1) } else { expected(format, text, &ROOM)? };
    match answer {
        Expected::Refused(n) => Ok((n, format!("refused {n}\n").into_bytes())),
        Expected::Circuit { circuit, .. } => Ok((0, circuit_lines(&circuit)?.into_bytes())),
    }
}

fn printed(programs: &Path, format: Format, text: &[u8]) -> std::io::Result<Vec<u8>> {
    let name = format!("{}_list", format!("{format:?}").to_lowercase());
    let mut child = Command::new(programs.join(name)).stdin(Stdio::piped()).stdout(Stdio::piped()).spawn()?;
    // the program reads all of the text that it takes before it prints, and may leave the rest unread
    let _ = child.stdin.take().map(|mut stdin| stdin.write_all(text));
    let mut bytes = Vec::new();
    if let Some(mut stdout) = child.stdout.take() {
        stdout.read_to_end(&mut bytes)?;
    }
    child.wait()?;
    Ok(bytes)
}

/// A text through the list program of its format; the refusal's number, 0 for a circuit.
pub fn compare(programs: &Path, format: Format, text: &[u8]) -> Result<usize, String> {
    let (number, theirs) = listing(format, text)?;
    let ours = printed(programs, format, text).map_err(|e| format!("the list program was not run: {e}"))?;
    if ours != theirs {
        return Err(format!("listings differ: {:?} and {:?}", shown(&theirs), shown(&ours)));
    }
    Ok(number)
}

fn shown(bytes: &[u8]) -> String {
    String::from_utf8_lossy(&bytes[..bytes.len().min(2000)]).into_owned()
}
