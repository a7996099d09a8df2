//! The readers: over areas that are lent (`read`), and by the Rust crate, which makes its areas and structs anew (`crate-read`).
use crate::colliding;
use crate::reference::BoolCircuit;
use crate::texts::{Format, Naming, text};
use crate::timing::{both, print};
use relay::archive;
use std::time::Duration;

const OLD: usize = 0x5555_5555;

/// Words of a name record.
const NAME_WORDS: usize = 5;

/// Areas that were allocated once, with old contents.
pub struct Areas {
    joined: Vec<u8>,
    nodes: Vec<usize>,
    names: Vec<usize>,
    outputs: Vec<usize>,
    wires: Vec<usize>,
}

impl Areas {
    /// Room for any BLIF or BENCH text of so many bytes.
    pub fn roomy(bytes: usize) -> Self {
        let records = bytes / 2 + 1;
        Self {
            joined: vec![0x55; bytes + 1],
            nodes: vec![OLD; 9 * records],
            names: vec![OLD; NAME_WORDS * records],
            outputs: vec![OLD; 5 * records],
            wires: vec![OLD; records],
        }
    }

    /// Room for just what a text has: its nodes, as many names or wires, and its outputs.
    pub fn fitting(format: Format, text: &[u8]) -> Self {
        let mut areas = Self::roomy(text.len());
        let (nodes, outputs) = areas.read(format, text);
        Self {
            joined: vec![0x55; text.len() + 1],
            nodes: vec![OLD; 9 * nodes],
            names: vec![OLD; NAME_WORDS * nodes],
            outputs: vec![OLD; 5 * outputs],
            wires: vec![OLD; nodes],
        }
    }

    pub fn read(&mut self, format: Format, text: &[u8]) -> (usize, usize) {
        match format {
            Format::Blif => archive::parse_blif(text, &mut self.joined, &mut self.nodes, &mut self.names, &mut self.outputs),
            Format::Bench => archive::parse_bench(text, &mut self.joined, &mut self.nodes, &mut self.names, &mut self.outputs),
            Format::Bristol => archive::parse_bristol(text, &mut self.nodes, &mut self.outputs, &mut self.wires),
        }
        .expect("the text is accepted")
    }

    /// The bytes lent to one call.
    pub fn lent(&self, format: Format) -> usize {
        let work = if format == Format::Bristol { 8 * self.wires.len() } else { self.joined.len() + 8 * self.names.len() };
        8 * (self.nodes.len() + self.outputs.len()) + work
    }
}

pub fn reference(format: Format, text: &str) -> BoolCircuit {
    match format {
        Format::Blif => BoolCircuit::parse_blif(text),
        Format::Bench => BoolCircuit::parse_bench(text),
        Format::Bristol => BoolCircuit::parse_bristol(text),
    }
    .expect("the text is accepted")
}

pub fn crate_read(format: Format, text: &str) -> relay::BoolCircuit {
    match format {
        Format::Blif => relay::BoolCircuit::parse_blif(text),
        Format::Bench => relay::BoolCircuit::parse_bench(text),
        Format::Bristol => relay::BoolCircuit::parse_bristol(text),
    }
    .expect("the text is accepted")
}

pub const LARGEST: usize = 1_048_576;

pub const KINDS: [(Format, Naming, &str); 7] = [
    (Format::Blif, Naming::Counted, "n12345"),
    (Format::Blif, Naming::Short, "short"),
    (Format::Blif, Naming::Long, "long"),
    (Format::Bench, Naming::Counted, "n12345"),
    (Format::Bench, Naming::Short, "short"),
    (Format::Bench, Naming::Long, "long"),
    (Format::Bristol, Naming::Counted, "numbers"),
];

/// Both sides read the same circuit: as many nodes and outputs, and the crate's structs print as the reference's.
fn same(format: Format, text: &str, areas: &mut Areas) {
    let theirs = reference(format, text);
    assert_eq!(areas.read(format, text.as_bytes()), (theirs.nodes.len(), theirs.outputs.len()), "circuits differ");
    assert_eq!(format!("{:?}", crate_read(format, text)), format!("{theirs:?}"), "circuits differ");
}

pub fn all() {
    let budget = Duration::from_millis(100);
    for (format, naming, kind) in KINDS {
        let doubling = naming == Naming::Counted;
        let sizes: &[usize] =
            if doubling { &[10_240, 65_536, 102_400, 131_072, 262_144, 524_288, LARGEST] } else { &[10_240, 102_400, LARGEST] };
        for &size in sizes {
            let text = text(format, naming, size);
            let mut areas = Areas::fitting(format, text.as_bytes());
            if size <= 102_400 {
                same(format, &text, &mut areas);
            }
            let times = both(budget, Some(|| areas.read(format, text.as_bytes())), Some(|| reference(format, &text)));
            print("read", format.word(), size, kind, times);
            if size == 10_240 || size == LARGEST {
                let times = both(budget, Some(|| crate_read(format, &text)), Some(|| reference(format, &text)));
                print("crate-read", format.word(), size, kind, times);
            }
        }
    }
    let text = text(Format::Blif, Naming::Counted, LARGEST);
    let mut areas = Areas::roomy(text.len());
    let times = both(budget, Some(|| areas.read(Format::Blif, text.as_bytes())), Some(|| reference(Format::Blif, &text)));
    print("read", "blif", LARGEST, "n12345-roomy", times);
    for count in [18_750, 37_500, 75_000] {
        alike_names(count, budget);
    }
}

/// A text of so many inputs whose names are alike in both hashes, beside one of as many names by chance: this library on both sides.
fn alike_names(count: usize, budget: Duration) {
    let (alike, chance) = colliding::both(count);
    let (mut first, mut second) = (Areas::fitting(Format::Blif, alike.as_bytes()), Areas::fitting(Format::Blif, chance.as_bytes()));
    let ours = || first.read(Format::Blif, alike.as_bytes());
    let times = both(budget, Some(ours), Some(|| second.read(Format::Blif, chance.as_bytes())));
    print("read-alike", "blif", alike.len(), "12-bytes", times);
}
