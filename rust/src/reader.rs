//! The readers.
use crate::archive;
use crate::circuit::BoolCircuit;
use crate::records::{self, NAME_WORDS, NODE_WORDS, OUTPUT_WORDS};
use crate::refusal::Refusal;
use crate::room::{self, Room};
use std::fmt;
use std::fs::File;
use std::io::{self, Read};
use std::path::Path;

/// The most bytes of a text.
pub const MOST_TEXT: usize = 1_048_576;

/// Reads netlists, keeping its areas from one text to the next.
///
/// ```
/// let mut reader = relay::Reader::default();
/// for text in ["INPUT(a)\nOUTPUT(y)\ny = NOT(a)\n", "INPUT(a)\nOUTPUT(y)\ny = BUFF(a)\n"] {
///     assert_eq!(reader.parse_bench(text.as_bytes())?.outputs.len(), 1);
/// }
/// # Ok::<(), relay::Refusal>(())
/// ```
#[derive(Clone, Debug, Default)]
pub struct Reader {
    joined: Vec<u8>,
    nodes: Vec<usize>,
    names: Vec<usize>,
    outputs: Vec<usize>,
    wires: Vec<usize>,
}

/// The first `len` elements of an area, made longer where it is too short.
fn lend<T: Clone + Default>(area: &mut Vec<T>, len: usize) -> &mut [T] {
    if area.len() < len {
        // a new area instead of a copied one: old contents don't matter, and fresh zeros cost nothing until they are touched
        *area = vec![T::default(); len];
    }
    &mut area[..len]
}

type Joined = fn(&[u8], &mut [u8], &mut [usize], &mut [usize], &mut [usize]) -> archive::Answer<(usize, usize)>;

impl Reader {
    fn circuit(&self, (nodes, outputs): (usize, usize)) -> BoolCircuit {
        records::circuit(&self.nodes[..NODE_WORDS * nodes], &self.outputs[..OUTPUT_WORDS * outputs], &self.joined)
    }

    /// Reads with more and more room until no 3 comes, or none that room would avoid.
    fn grown(
        &mut self, mut room: Room, mut read: impl FnMut(&mut Self, Room) -> archive::Answer<(usize, usize)>,
    ) -> Result<BoolCircuit, Refusal> {
        loop {
            match read(self, room).map_err(Refusal::of) {
                Ok(counts) => return Ok(self.circuit(counts)),
                Err(Refusal::NoRoom) => room = room.doubled().ok_or(Refusal::NoRoom)?,
                Err(refusal) => return Err(refusal),
            }
        }
    }

    fn joined(&mut self, text: &[u8], room: fn(&[u8]) -> Room, parse: Joined) -> Result<BoolCircuit, Refusal> {
        // a text that is too long is refused whatever it holds: not looked at, and no area for it
        let (room, bytes) = if text.len() > MOST_TEXT { (room(&[]), 0) } else { (room(text), text.len() + 1) };
        self.grown(room, |areas, room| {
            parse(
                text,
                lend(&mut areas.joined, bytes),
                lend(&mut areas.nodes, NODE_WORDS * room.nodes),
                lend(&mut areas.names, NAME_WORDS * room.names),
                lend(&mut areas.outputs, OUTPUT_WORDS * room.outputs),
            )
        })
    }

    /// A BLIF text.
    pub fn parse_blif(&mut self, text: &[u8]) -> Result<BoolCircuit, Refusal> {
        self.joined(text, room::blif, archive::parse_blif)
    }

    /// An ISCAS BENCH text.
    pub fn parse_bench(&mut self, text: &[u8]) -> Result<BoolCircuit, Refusal> {
        self.joined(text, room::bench, archive::parse_bench)
    }

    /// A Bristol text.
    pub fn parse_bristol(&mut self, text: &[u8]) -> Result<BoolCircuit, Refusal> {
        let room = room::bristol(if text.len() > MOST_TEXT { &[] } else { text });
        self.grown(room, |areas, room| {
            archive::parse_bristol(
                text,
                lend(&mut areas.nodes, NODE_WORDS * room.nodes),
                lend(&mut areas.outputs, OUTPUT_WORDS * room.outputs),
                lend(&mut areas.wires, room.wires),
            )
        })
    }
}

/// Why a file gave no circuit.
#[derive(Debug)]
pub enum FileError {
    /// It can't be read.
    Unreadable(io::Error),
    /// Its text is refused.
    Refused(Refusal),
}

impl fmt::Display for FileError {
    fn fmt(&self, f: &mut fmt::Formatter<'_>) -> fmt::Result {
        match self {
            FileError::Unreadable(error) => write!(f, "cannot read: {error}"),
            FileError::Refused(refusal) => refusal.fmt(f),
        }
    }
}

impl std::error::Error for FileError {}

impl From<Refusal> for FileError {
    fn from(refusal: Refusal) -> Self {
        FileError::Refused(refusal)
    }
}

/// A file's bytes, but no more than show that there are too many.
fn file_text(path: &Path) -> Result<Vec<u8>, FileError> {
    let mut text = Vec::new();
    let read = File::open(path).and_then(|file| file.take(MOST_TEXT as u64 + 1).read_to_end(&mut text));
    read.map(|_| text).map_err(FileError::Unreadable)
}

impl BoolCircuit {
    /// Reads a BLIF text: cells of at most two inputs, each defined before it is used.
    pub fn parse_blif(source: &str) -> Result<Self, Refusal> {
        Reader::default().parse_blif(source.as_bytes())
    }

    /// Reads an ISCAS BENCH text; gates of many inputs become chains of two-input cells.
    pub fn parse_bench(source: &str) -> Result<Self, Refusal> {
        Reader::default().parse_bench(source.as_bytes())
    }

    /// Reads a Bristol text whose gates have one output.
    pub fn parse_bristol(source: &str) -> Result<Self, Refusal> {
        Reader::default().parse_bristol(source.as_bytes())
    }

    /// Reads a file as BLIF.
    pub fn parse_blif_file(path: impl AsRef<Path>) -> Result<Self, FileError> {
        Ok(Reader::default().parse_blif(&file_text(path.as_ref())?)?)
    }

    /// Reads a file as BENCH.
    pub fn parse_bench_file(path: impl AsRef<Path>) -> Result<Self, FileError> {
        Ok(Reader::default().parse_bench(&file_text(path.as_ref())?)?)
    }

    /// Reads a file as Bristol.
    pub fn parse_bristol_file(path: impl AsRef<Path>) -> Result<Self, FileError> {
        Ok(Reader::default().parse_bristol(&file_text(path.as_ref())?)?)
    }
}
