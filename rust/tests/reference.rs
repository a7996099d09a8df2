//! The crate beside the reference, where RELAY_REFERENCE names the folder that has src/circuit.rs: on random and damaged texts both accept
//! the same, and give equal circuits, orders, assignments and outputs. Nothing of the reference is copied.
#![cfg(reference)]

#[allow(dead_code)]
#[rustfmt::skip]
#[path = "../../compare/src/generate.rs"]
mod generate;

#[allow(dead_code)]
mod reference {
    include!(concat!(env!("RELAY_REFERENCE"), "/src/circuit.rs"));
}

use generate::{Format, Random, texts};
use reference::BoolCircuit as Theirs;
use relay::BoolCircuit as Ours;

fn parse(format: Format, text: &str) -> (Result<Ours, relay::Refusal>, Result<Theirs, String>) {
    match format {
        Format::Blif => (Ours::parse_blif(text), Theirs::parse_blif(text)),
        Format::Bench => (Ours::parse_bench(text), Theirs::parse_bench(text)),
        Format::Bristol => (Ours::parse_bristol(text), Theirs::parse_bristol(text)),
    }
}

/// ASCII texts whose Bristol numbers are small: beyond them the reference overflows or takes much memory.
fn in_domain(format: Format, text: &[u8]) -> bool {
    let small = |text: &str| text.split(|c: char| c.is_whitespace() || c == '#').filter_map(|word| word.parse::<u64>().ok()).all(|number| number <= 1000);
    text.is_ascii() && text.len() <= 8000 && (format != Format::Bristol || small(&String::from_utf8_lossy(text)))
}

fn compare(ours: &Ours, theirs: &Theirs) {
    assert_eq!(format!("{ours:?}"), format!("{theirs:?}"));
    assert_eq!(ours.validate_topological().is_ok(), theirs.validate_topological().is_ok());
    assert_eq!(ours.topological_gates(), theirs.topological_gates());
    for window in [1, 2, 3, usize::MAX] {
        let key = |id: usize| (id * 7 % 3, (id * 5 % 4) << 40, id);
        assert_eq!(ours.scheduled_gates_by_key(window, key).ok(), theirs.scheduled_gates_by_key(window, key).ok());
    }
    if ours.inputs.len() > 5 {
        return;
    }
    let assignments = ours.exhaustive_inputs().expect("few inputs");
    assert_eq!(Some(&assignments), theirs.exhaustive_inputs().ok().as_ref());
    let order = ours.scheduled_gates_by_key(2, |id| (0, 0, id)).expect("an order");
    for assignment in assignments {
        let outputs = ours.evaluate(&assignment).expect("outputs");
        assert_eq!(Some(&outputs), theirs.evaluate(&assignment).ok().as_ref());
        let known = assignment.into_iter().map(|(name, value)| (name, Some(value))).collect();
        let along: Vec<_> = ours.run(&order, &known).expect("outputs");
        assert_eq!(along, outputs.into_iter().map(|(name, value)| (name, Some(value))).collect::<Vec<_>>());
    }
}

#[test]
fn same_as_the_reference() {
    let mut random = Random::new(5);
    for format in [Format::Blif, Format::Bench, Format::Bristol] {
        let (mut compared, mut accepted) = (0, 0);
        for text in texts(format, 20_000, &mut random).into_iter().filter(|text| in_domain(format, text)) {
            let text = String::from_utf8(text).expect("ASCII");
            compared += 1;
            match parse(format, &text) {
                (Ok(ours), Ok(theirs)) => {
                    compare(&ours, &theirs);
                    accepted += 1;
                }
                (Err(_), Err(_)) => {}
                (ours, theirs) => panic!("{format:?} {text:?}: {ours:?} and {theirs:?}"),
            }
        }
        assert!(accepted > 1_000, "{format:?}: {accepted} accepted");
        println!("{format:?}: {compared} compared, {accepted} accepted by both");
    }
}
