//! How many records a text needs: a first guess, and how far it may grow.
//!
//! The library answers 3 where an area is full. A guess that turns out too small is doubled and the text read again, up to `most`, at
//! which no text can fill an area; so a caller never sees a 3 that a larger area would avoid.

/// The most records of an area that the library uses.
pub const MOST_RECORDS: usize = 1_048_576;

/// Records of each area.
#[derive(Clone, Copy, Debug)]
pub struct Room {
    pub nodes: usize,
    pub names: usize,
    pub outputs: usize,
    pub wires: usize,
    /// No area is made larger than this.
    pub most: usize,
}

impl Room {
    fn new(nodes: usize, names: usize, outputs: usize, wires: usize, most: usize) -> Self {
        let most = most.min(MOST_RECORDS);
        Self { nodes: nodes.min(most), names: names.min(most), outputs: outputs.min(most), wires: wires.min(most), most }
    }

    /// Twice the room; nothing where no area can grow.
    pub fn doubled(self) -> Option<Self> {
        let twice = Self::new(2 * self.nodes + 1, 2 * self.names + 1, 2 * self.outputs + 1, 2 * self.wires + 1, self.most);
        (twice.nodes > self.nodes || twice.names > self.names || twice.outputs > self.outputs || twice.wires > self.wires).then_some(twice)
    }
}

/// A byte that stands between words: 9 to 13 and 32.
fn blank(byte: &u8) -> bool {
    matches!(byte, 9..=13 | 32)
}

fn lines(text: &[u8]) -> impl Iterator<Item = &[u8]> {
    text.split(|byte| *byte == b'\n')
}

fn words(line: &[u8]) -> impl Iterator<Item = &[u8]> {
    line.split(blank).filter(|word| !word.is_empty())
}

/// Every node, name and output of a BLIF text has a word of its own, and words stand a byte apart: at most half as many as bytes.
pub fn blif(text: &[u8]) -> Room {
    let (mut cells, mut inputs, mut outputs) = (0, 0, 0);
    let mut list: Option<&[u8]> = None;
    for line in lines(text) {
        let line = line.trim_ascii();
        let kind = if line.starts_with(b".") { words(line).next() } else { list };
        match kind {
            Some(b".names") => cells += 1,
            Some(b".inputs") => inputs += words(line).count(),
            Some(b".outputs") => outputs += words(line).count(),
            _ => {}
        }
        list = if line.ends_with(b"\\") { kind } else { None };
    }
    Room::new(cells + inputs, cells + inputs, outputs, 0, text.len() / 2 + 1)
}

/// A gate of a BENCH text makes a node for each argument but one, and a comma stands between arguments: two bytes for each node.
pub fn bench(text: &[u8]) -> Room {
    let (mut nodes, mut names, mut outputs) = (0, 0, 0);
    for line in lines(text) {
        if line.trim_ascii_start().get(..6).is_some_and(|word| word.eq_ignore_ascii_case(b"OUTPUT")) {
            outputs += 1;
        } else {
            nodes += line.iter().filter(|byte| **byte == b',').count().max(1);
            names += 1;
        }
    }
    Room::new(nodes, names, outputs, 0, text.len() / 2 + 1)
}

/// A Bristol text names the numbers of its wires, inputs and outputs in its header: a short text may have a great many of them. Rows make
/// at most a node each. With more wires than the library takes, no area helps, and none is lent.
pub fn bristol(text: &[u8]) -> Room {
    let mut kept =
        lines(text).map(|line| line.split(|byte| *byte == b'#').next().unwrap_or_default()).filter(|line| !line.iter().all(blank));
    let mut numbers = || -> Vec<usize> {
        let number = |word: &[u8]| std::str::from_utf8(word).ok().and_then(|word| word.parse().ok()).unwrap_or(0);
        kept.next().map_or(Vec::new(), |line| words(line).map(number).collect())
    };
    let wires = numbers().get(1).copied().unwrap_or(0);
    let mut total = || numbers().iter().skip(1).fold(0usize, |sum, width| sum.saturating_add(*width));
    let (inputs, outputs) = (total(), total());
    if wires > MOST_RECORDS {
        return Room::new(0, 0, 0, 0, 0);
    }
    Room::new(inputs.saturating_add(lines(text).count()), 0, outputs, wires, MOST_RECORDS)
}
