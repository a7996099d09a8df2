//! Feeds the same netlists to the reference and to this library, and compares every answer, area and listing.
//! Usage: compare PROGRAMS COUNT [SEED]             random, boundary and damaged texts, random circuits of few and of many cells
//!        compare PROGRAMS --files FILE..           the files, the format by the ending
//!        compare PROGRAMS --record FORMAT FILE..   to standard output the records of crates/replay for the files
//! PROGRAMS is the folder of the list programs. The last line is `N compared, M differ`; the status is 1 if any differs.
mod boundaries;
mod circuits;
mod expected;
mod generate;
mod large;
mod library;
mod listing;
mod reference {
    #![allow(dead_code)]
    include!(concat!(env!("REFERENCE"), "/src/circuit.rs"));
    pub mod records;
}
mod report;
mod runs;
mod shapes;

use expected::{Expected, Lent};
use generate::{Format, Random};
use library::{Areas, Records};
use report::Report;
use std::io::Write;
use std::path::Path;

const FORMATS: [Format; 3] = [Format::Blif, Format::Bench, Format::Bristol];
/// One circuit of up to 3,000 cells, one of 20,000, and one of 70,000, for so many random texts.
const LARGE_PART: usize = 20;
const LARGEST_PART: usize = 3000;
const FARTHEST_PART: usize = 15_000;
const OLD: [usize; 6] = [1, 2, 3, 7, 0xDEAD_BEEF, usize::MAX];

/// A text read into areas of these lengths; the refusal's number, 0 for a circuit.
fn read_text(format: Format, text: &[u8], lent: &Lent, areas: &mut Areas, old: usize) -> Result<usize, String> {
    let answer = areas.read(format, text, lent, old);
    match expected::expected(format, text, lent)? {
        Expected::Refused(n) => {
            if answer != (n, 0, 0) {
                return Err(format!("{n} is expected and the answer is {answer:?}; lent {lent:?}"));
            }
            if !areas.hold(format, &[], &[], &[]) {
                return Err(format!("{n} leaves something behind; lent {lent:?}"));
            }
            Ok(n)
        }
        Expected::Circuit { circuit, joined, nodes, outputs } => {
            if answer != (0, circuit.nodes.len(), circuit.outputs.len()) {
                return Err(format!("a circuit of {} nodes is expected and the answer is {answer:?}; lent {lent:?}", circuit.nodes.len()));
            }
            if !areas.hold(format, &joined, &nodes, &outputs) {
                return Err(format!("the areas are not the reference's circuit; lent {lent:?}"));
            }
            runs::compare(&circuit, Records { nodes: areas.nodes.first(nodes.len()), outputs: areas.outputs.first(outputs.len()) })?;
            Ok(0)
        }
    }
}

/// Areas that suffice, from just enough to some records more.
fn enough(format: Format, text: &[u8], random: &mut Random) -> Lent {
    let mut lent = Lent::exactly(expected::places(format, text), text.len());
    for words in [&mut lent.joined, &mut lent.nodes, &mut lent.names, &mut lent.outputs, &mut lent.wires] {
        *words = words.saturating_add([0, 0, 1, 8, 200][random.below(5)]);
    }
    // more wires than an area's most are 3, however long it is
    lent.wires = lent.wires.min(reference::records::MOST + 100);
    lent
}

/// One of the areas a little or much shorter than the text asks for.
fn short(format: Format, text: &[u8], random: &mut Random) -> Lent {
    let mut lent = enough(format, text, random);
    let exact = Lent::exactly(expected::places(format, text), text.len());
    let bristol = format == Format::Bristol;
    let (words, needed) = match random.below(4) {
        0 => (&mut lent.nodes, exact.nodes),
        1 => (&mut lent.outputs, exact.outputs),
        _ if bristol => (&mut lent.wires, exact.wires),
        2 => (&mut lent.names, exact.names),
        _ => (&mut lent.joined, exact.joined),
    };
    let needed = needed.min(reference::records::MOST * 9);
    *words = match random.below(4) {
        0 => 0,
        1 => random.below(needed + 1),
        _ => needed.saturating_sub(1 + random.below(9)),
    };
    lent
}

fn library_text(format: Format, text: &[u8], areas: &mut Areas, random: &mut Random, report: &mut Report) {
    let old = OLD[random.below(OLD.len())];
    let lent = enough(format, text, random);
    report.add("library", format, text, read_text(format, text, &lent, areas, old));
    let lent = short(format, text, random);
    report.add("short areas", format, text, read_text(format, text, &lent, areas, old));
}

fn random_texts(programs: &Path, count: usize, seed: u64) -> Report {
    let mut report = Report::new();
    let mut random = Random::new(seed);
    let mut areas = Areas::new();
    for format in FORMATS {
        let small = boundaries::small(format);
        let large = boundaries::large(format);
        let texts = generate::texts(format, count / 3, &mut random);
        for text in small.iter().chain(&large).chain(&texts) {
            library_text(format, text, &mut areas, &mut random, &mut report);
        }
        // a process for each text: all large ones, some of each answer, and every so many of the others
        let listed = (count / 60).max(150);
        for (texts, every) in [(&large, 1), (&small, small.len() / listed + 1), (&texts, texts.len() / listed + 1)] {
            for (k, text) in texts.iter().enumerate() {
                if k % every == 0 || report.rare("list program", format, &listing::listing(format, text)) {
                    report.add("list program", format, text, listing::compare(programs, format, text));
                }
            }
        }
    }
    for _ in 0..count {
        report.add_circuit(circuits::compare(&mut random));
    }
    // as many as suffice to meet every shape and window, and more with the count
    for number in 0..(count / LARGE_PART).max(70) {
        let cells = large::some_cells(&mut random);
        report.add_large(large::compare(&mut random, number, cells));
    }
    for number in 0..(count / LARGEST_PART).max(3) {
        let cells = 20_000 + random.below(1000);
        report.add_large(large::compare(&mut random, number, cells));
    }
    for number in 0..(count / FARTHEST_PART).max(2) {
        report.add_large(large::compare_far(&mut random, if number % 2 == 0 { 70_000 } else { 140_000 }));
    }
    report.require_numbers();
    report.require_windows();
    report.require_marks();
    report
}

fn format_of(word: &str) -> Option<Format> {
    let ending = word.rsplit('.').next().unwrap_or("");
    match ending {
        "blif" => Some(Format::Blif),
        "bench" => Some(Format::Bench),
        "bristol" | "txt" => Some(Format::Bristol),
        _ => None,
    }
}

fn given_files(programs: &Path, names: &[String]) -> Report {
    let mut report = Report::new();
    let mut random = Random::new(1);
    let mut areas = Areas::new();
    for name in names {
        let format = format_of(name).unwrap_or_else(|| stop(&format!("{name}: no ending that tells the format")));
        let text = std::fs::read(name).unwrap_or_else(|e| stop(&format!("{name}: {e}")));
        match listing::listing(format, &text) {
            Ok((0, _)) => println!("{name}: accepted"),
            Ok((n, _)) => println!("{name}: refused {n}"),
            Err(what) => println!("{name}: {what}"),
        }
        library_text(format, &text, &mut areas, &mut random, &mut report);
        report.add("list program", format, &text, listing::compare(programs, format, &text));
    }
    report
}

/// The records of crates/replay: the length of the text and that of the answer, two bytes each, the higher first; the text; the answer.
fn record(format: Format, names: &[String]) -> Result<(), String> {
    for name in names {
        let text = std::fs::read(name).map_err(|e| format!("{name}: {e}"))?;
        let (_, answer) = listing::listing(format, &text)?;
        let sizes: Vec<u8> = [text.len(), answer.len()].iter().map(|n| u16::try_from(*n)).collect::<Result<Vec<u16>, _>>().map_err(|_| format!("{name}: too long for a record"))?.iter().flat_map(|n| n.to_be_bytes()).collect();
        std::io::stdout().write_all(&[&sizes[..], &text, &answer].concat()).map_err(|e| e.to_string())?;
    }
    Ok(())
}

fn stop(what: &str) -> ! {
    eprintln!("compare: {what}");
    std::process::exit(2)
}

fn main() {
    let words: Vec<String> = std::env::args().skip(1).collect();
    let [programs, first, rest @ ..] = &words[..] else { stop("usage: compare PROGRAMS COUNT [SEED], or --files FILE.., or --record FORMAT FILE..") };
    let programs = Path::new(programs);
    let number = |word: &String| word.parse::<u64>().unwrap_or_else(|_| stop(&format!("{word} is no number")));
    let report = match first.as_str() {
        "--files" => given_files(programs, rest),
        "--record" => {
            let [format, names @ ..] = rest else { stop("--record FORMAT FILE..") };
            let format = format_of(&format!(".{format}")).unwrap_or_else(|| stop("the format is blif, bench or bristol"));
            record(format, names).unwrap_or_else(|e| stop(&e));
            return;
        }
        _ => random_texts(programs, number(first) as usize, rest.first().map_or(1, number)),
    };
    std::process::exit(report.print());
}
