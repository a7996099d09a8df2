//! Every refusal, by the call that gives it.
use relay::{BoolCircuit, BoolNode, BoolWire, FileError, Reader, Refusal};
use std::collections::HashMap;

fn blif(text: &str) -> Refusal {
    BoolCircuit::parse_blif(text).expect_err(text)
}

fn bench(text: &str) -> Refusal {
    BoolCircuit::parse_bench(text).expect_err(text)
}

fn bristol(text: &str) -> Refusal {
    BoolCircuit::parse_bristol(text).expect_err(text)
}

fn input(name: &str) -> BoolNode {
    BoolNode::Input { name: name.to_owned() }
}

fn cell(inputs: &[usize], table: &[u8]) -> BoolNode {
    BoolNode::Lut { name: "t".to_owned(), inputs: inputs.iter().map(|id| BoolWire::Node(*id)).collect(), table: table.to_vec() }
}

/// A circuit put together by hand, whose output is its last node.
fn circuit(nodes: Vec<BoolNode>) -> BoolCircuit {
    let inputs = (0..nodes.len()).filter(|id| matches!(nodes[*id], BoolNode::Input { .. })).collect();
    let outputs = vec![("y".to_owned(), BoolWire::Node(nodes.len() - 1))];
    BoolCircuit { nodes, inputs, outputs }
}

fn and() -> BoolCircuit {
    circuit(vec![input("a"), input("b"), cell(&[0, 1], &[0, 0, 0, 1])])
}

fn values<T: Copy>(values: &[(&str, T)]) -> HashMap<String, T> {
    values.iter().map(|(name, value)| ((*name).to_owned(), *value)).collect()
}

#[test]
fn numbers_and_texts() {
    let numbers: Vec<usize> = Refusal::ALL.iter().map(|refusal| refusal.number()).collect();
    assert_eq!(numbers, (1..=21).collect::<Vec<_>>());
    assert_eq!(Refusal::Circle.to_string(), "refused 17: cells read in a circle");
    assert_eq!(String::from(Refusal::NoWindow), "refused 18: the window is 0");
}

#[test]
fn text_too_long() {
    let spaces = " ".repeat(1_048_576);
    assert_eq!(blif(&spaces), Refusal::NoOutputs);
    assert_eq!(bench(&spaces), Refusal::NoOutputs);
    assert_eq!(bristol(&spaces), Refusal::Malformed);
    for text in [spaces + " ", "\u{e9}".repeat(700_000)] {
        assert_eq!([blif(&text), bench(&text), bristol(&text)], [Refusal::TextTooLong; 3]);
    }
}

#[test]
fn not_ascii() {
    for text in [".model caf\u{e9}\n", "# \u{80}", "\u{ff11}"] {
        assert_eq!([blif(text), bench(text), bristol(text)], [Refusal::NotAscii; 3]);
    }
    assert_eq!(Reader::default().parse_blif(b".inputs a\xff\n"), Err(Refusal::NotAscii));
}

#[test]
fn no_room() {
    assert_eq!(bristol("0 1048577\n0\n0\n"), Refusal::NoRoom);
    assert_eq!(bristol("0 18446744073709551615\n0\n0\n"), Refusal::NoRoom);
    assert_eq!(bristol("0 18446744073709551615\n2 18446744073709551615 1\n0\n"), Refusal::HeaderMismatch);
    assert_eq!(bristol("1 1048576\n1 1048576\n0\n1 1 0 1 INV\n"), Refusal::NoRoom);
    assert_eq!(bristol("1 1048575\n1 1048575\n0\n1 1 0 1 INV\n"), Refusal::DrivenTwice);
    assert_eq!(BoolCircuit::parse_bristol("0 1048576\n0\n0\n").expect("room for as many").nodes.len(), 0);
    assert_eq!(BoolCircuit::parse_bristol("0 1048576\n1 1048576\n0\n").expect("room for as many").inputs.len(), 1_048_576);
}

#[test]
fn defined_before() {
    assert_eq!(blif(".inputs a a\n"), Refusal::DefinedBefore);
    assert_eq!(blif(".inputs a\n.names a\n"), Refusal::DefinedBefore);
    assert_eq!(bench("INPUT(TRUE)\n"), Refusal::DefinedBefore);
}

#[test]
fn no_driver() {
    assert_eq!(blif(".names a b\n"), Refusal::NoDriver);
    assert_eq!(blif(".outputs y\n"), Refusal::NoDriver);
    assert_eq!(bench("OUTPUT(y)\n"), Refusal::NoDriver);
    assert_eq!(bristol("1 2\n1 1\n1 1\n1 1 7 1 INV\n"), Refusal::NoDriver);
}

#[test]
fn wrong_count() {
    assert_eq!(blif(".inputs a b c\n.names a b c y\n"), Refusal::WrongCount);
    assert_eq!(bench("INPUT(a,b)\n"), Refusal::WrongCount);
    assert_eq!(bench("INPUT(a)\ny = AND(a)\n"), Refusal::WrongCount);
    assert_eq!(bristol("1 3\n1 1\n1 1\n1 2 0 1 2 INV\n"), Refusal::WrongCount);
}

#[test]
fn bad_row() {
    assert_eq!(blif(".inputs a\n.names a y\n11 1\n"), Refusal::BadRow);
    assert_eq!(blif(".names y\n2\n"), Refusal::BadRow);
}

#[test]
fn unknown() {
    assert_eq!(blif(".latch a b\n"), Refusal::Unknown);
    assert_eq!(bench("INPUT(a)\nb = DFF(a)\n"), Refusal::Unknown);
    assert_eq!(bristol("1 3\n1 2\n1 1\n2 1 0 1 2 MUX\n"), Refusal::Unknown);
}

#[test]
fn malformed() {
    assert_eq!(blif("11 1\n"), Refusal::Malformed);
    assert_eq!(blif(".names\n"), Refusal::Malformed);
    assert_eq!(bench("y = AND(a,,b)\n"), Refusal::Malformed);
    assert_eq!(bristol("1 2\n1 1\n"), Refusal::Malformed);
}

#[test]
fn no_outputs() {
    assert_eq!(blif(".inputs a\n"), Refusal::NoOutputs);
    assert_eq!(bench("INPUT(a)\n"), Refusal::NoOutputs);
}

#[test]
fn bristol_headers_and_wires() {
    assert_eq!(bristol("2 2\n1 1\n1 1\n1 1 0 1 INV\n"), Refusal::HeaderMismatch);
    assert_eq!(bristol("1 2\n2 1\n1 1\n"), Refusal::HeaderMismatch);
    assert_eq!(bristol("1 x\n1 1\n1 1\n"), Refusal::NotNumber);
    assert_eq!(bristol("1 18446744073709551616\n1 1\n1 1\n"), Refusal::NotNumber);
    assert_eq!(bristol("1 2\n1 1\n1 1\n1 1 0 2 INV\n"), Refusal::OutputOutside);
    assert_eq!(bristol("2 2\n1 1\n1 1\n1 1 0 1 INV\n1 1 0 1 INV\n"), Refusal::DrivenTwice);
}

#[test]
fn broken() {
    let shapes = [
        cell(&[], &[1]),
        cell(&[0, 1, 0], &[0; 8]),
        cell(&[0, 1], &[0, 1]),
        cell(&[0], &[0, 1, 0, 1]),
        cell(&[0, 1], &[0, 0, 0, 2]),
        cell(&[0, 3], &[0, 0, 0, 1]),
        cell(&[0, usize::MAX], &[0, 0, 0, 1]),
    ];
    for shape in shapes {
        let circuit = circuit(vec![input("a"), input("b"), shape]);
        let map = values(&[("a", true), ("b", true)]);
        assert_eq!(circuit.validate_topological(), Err(Refusal::Broken), "{circuit:?}");
        assert_eq!(circuit.scheduled_gates_by_key(0, |id| (0, 0, id)), Err(Refusal::Broken));
        assert_eq!(circuit.evaluate(&map), Err(Refusal::Broken));
        assert_eq!(circuit.run(&[], &values(&[])), Err(Refusal::Broken));
        assert_eq!(circuit.exhaustive_inputs(), Err(Refusal::Broken));
    }
    let mut outside = and();
    outside.outputs.push(("z".to_owned(), BoolWire::Node(3)));
    assert_eq!(outside.validate_topological(), Err(Refusal::Broken));
}

#[test]
fn not_earlier_and_circle() {
    let forward = circuit(vec![input("a"), cell(&[2], &[1, 0]), cell(&[0], &[1, 0])]);
    assert_eq!(forward.validate_topological(), Err(Refusal::NotEarlier));
    assert_eq!(forward.evaluate(&values(&[("a", true)])), Err(Refusal::NotEarlier));
    assert_eq!(forward.scheduled_gates_by_key(1, |id| (0, 0, id)), Ok(vec![2, 1]));
    let circle = circuit(vec![input("a"), cell(&[2], &[1, 0]), cell(&[1], &[1, 0])]);
    assert_eq!(circle.scheduled_gates_by_key(1, |id| (0, 0, id)), Err(Refusal::Circle));
    let itself = circuit(vec![input("a"), cell(&[0, 1], &[0, 0, 0, 1])]);
    assert_eq!(itself.scheduled_gates_by_key(1, |id| (0, 0, id)), Err(Refusal::Circle));
}

#[test]
fn windows_values_and_orders() {
    let and = and();
    assert_eq!(and.scheduled_gates_by_key(0, |id| (0, 0, id)), Err(Refusal::NoWindow));
    assert_eq!(and.evaluate(&values(&[("a", true)])), Err(Refusal::WrongValues));
    assert_eq!(and.evaluator().evaluate(&[true, true, true]), Err(Refusal::WrongValues));
    assert_eq!(and.run(&[2], &values(&[("b", None)])), Err(Refusal::WrongValues));
    assert_eq!(and.evaluator().assignment(4), Err(Refusal::WrongValues));
    let known = values(&[("a", Some(true)), ("b", None)]);
    for order in [vec![], vec![0], vec![2, 2], vec![3], vec![usize::MAX]] {
        assert_eq!(and.run(&order, &known), Err(Refusal::UnfitOrder), "{order:?}");
    }
}

#[test]
fn too_many_inputs() {
    let inputs = |count: usize| circuit((0..count).map(|p| input(&format!("i{p}"))).collect());
    assert_eq!(inputs(20).evaluator().assignment(1_048_575), Ok(vec![true; 20]));
    assert_eq!(inputs(21).evaluator().assignment(0), Err(Refusal::TooManyInputs));
    assert_eq!(inputs(21).exhaustive_inputs(), Err(Refusal::TooManyInputs));
}

#[test]
fn files() {
    let missing = BoolCircuit::parse_blif_file("no/such/file.blif").expect_err("no such file");
    assert!(matches!(missing, FileError::Unreadable(_)), "{missing}");
    let wrong = BoolCircuit::parse_bristol_file("../examples/band_decoder.blif").expect_err("no Bristol");
    assert!(matches!(wrong, FileError::Refused(Refusal::NotNumber)), "{wrong}");
}
