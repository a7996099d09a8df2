//! Circuits that are read, ordered and run.
use relay::{BoolCircuit, BoolNode, BoolWire, Reader};
use std::collections::HashMap;

fn lut(name: &str, inputs: &[BoolWire], table: &[u8]) -> BoolNode {
    BoolNode::Lut { name: name.to_owned(), inputs: inputs.to_vec(), table: table.to_vec() }
}

fn input(name: &str) -> BoolNode {
    BoolNode::Input { name: name.to_owned() }
}

fn node(id: usize) -> BoolWire {
    BoolWire::Node(id)
}

#[test]
fn blif_circuit() {
    let text = ".inputs a b\n.outputs y k\n.names k\n1\n.names a b t\n10 1\n.names a u\n1 1\n.names t u y\n1- 0\n";
    let circuit = BoolCircuit::parse_blif(text).expect(text);
    let expected = BoolCircuit {
        nodes: vec![input("a"), input("b"), lut("t", &[node(0), node(1)], &[0, 0, 1, 0]), lut("y", &[node(2), node(0)], &[1, 1, 0, 0])],
        inputs: vec![0, 1],
        outputs: vec![("y".to_owned(), node(3)), ("k".to_owned(), BoolWire::Const(true))],
    };
    assert_eq!(circuit, expected);
    assert_eq!(circuit.topological_gates(), [2, 3]);
    assert_eq!(circuit.nodes[3].inputs(), [node(2), node(0)]);
}

#[test]
fn bench_circuit() {
    let text = "INPUT(a)\nINPUT(b)\nINPUT(c)\nOUTPUT(y)\ny = nand(a, b, c)\n";
    let circuit = BoolCircuit::parse_bench(text).expect(text);
    let chained = [lut("y$bench$1", &[node(0), node(1)], &[0, 0, 0, 1]), lut("y", &[node(3), node(2)], &[1, 1, 1, 0])];
    assert_eq!(circuit.nodes[3..], chained);
}

#[test]
fn bristol_circuit() {
    let text = "2 4\n1 2\n1 1\n2 1 0 1 2 XOR\n1 1 2 3 INV\n";
    let circuit = BoolCircuit::parse_bristol(text).expect(text);
    let names: Vec<&str> = circuit.nodes.iter().map(BoolNode::name).collect();
    assert_eq!(names, ["i_0", "i_1", "w_2", "w_3"]);
    assert_eq!(circuit.outputs, [("3".to_owned(), node(3))]);
    assert!(BoolCircuit::parse_bristol("0 1\n1 1\n0\n").expect("no outputs").outputs.is_empty());
}

#[test]
fn keys_of_any_size() {
    let text: String = (0..9).map(|k| format!("y{k} = NOT(a)\n")).collect();
    let circuit = BoolCircuit::parse_bench(&format!("INPUT(a)\nOUTPUT(y0)\n{text}")).expect("nine cells");
    let (small, large) = (|id: usize| (id % 3, 0, id), |id: usize| ((id % 3) << 40, usize::MAX - 7, id << 33));
    for window in [1, 2, 5, usize::MAX] {
        assert_eq!(circuit.scheduled_gates_by_key(window, small), circuit.scheduled_gates_by_key(window, large));
    }
    assert_eq!(circuit.scheduled_gates_by_key(usize::MAX, small).expect("an order"), [8, 5, 2, 7, 4, 1, 9, 6, 3]);
    let mut asked = Vec::new();
    circuit
        .scheduled_gates_by_key(3, |id| {
            asked.push(id);
            (0, 0, 0)
        })
        .expect("an order");
    assert_eq!(asked, circuit.topological_gates());
}

#[test]
fn unknown_inputs() {
    let circuit = BoolCircuit::parse_bench("INPUT(a)\nINPUT(b)\nOUTPUT(y)\nOUTPUT(z)\ny = AND(a, b)\nz = XOR(a, a)\n").expect("two cells");
    let mut evaluator = circuit.evaluator();
    let order = circuit.topological_gates();
    assert_eq!(evaluator.run(&order, &[None, Some(false)]), Ok(&[Some(false), None][..]));
    assert_eq!(evaluator.run(&order, &[Some(true), None]), Ok(&[None, Some(false)][..]));
    assert_eq!(evaluator.evaluate(&[true, true]), Ok(&[true, false][..]));
}

#[test]
fn all_assignments() {
    let circuit = BoolCircuit::parse_blif(".inputs p q\n.outputs p\n").expect("two inputs");
    let bits = |p, q| HashMap::from([("p".to_owned(), p), ("q".to_owned(), q)]);
    assert_eq!(circuit.exhaustive_inputs(), Ok(vec![bits(false, false), bits(false, true), bits(true, false), bits(true, true)]));
    let none = BoolCircuit::parse_blif(".outputs k\n.names k\n1\n").expect("no inputs");
    assert_eq!(none.exhaustive_inputs(), Ok(vec![HashMap::new()]));
    assert_eq!(none.evaluate(&HashMap::new()), Ok(vec![("k".to_owned(), true)]));
    assert_eq!(BoolCircuit::default().validate_topological(), Ok(()));
}

#[test]
fn areas_are_kept() {
    let mut reader = Reader::default();
    let text = |cells: usize| format!("INPUT(a)\nOUTPUT(y0)\n{}", (0..cells).map(|k| format!("y{k} = NOT(a)\n")).collect::<String>());
    for cells in [900, 1, 40, 2000, 3] {
        assert_eq!(reader.parse_bench(text(cells).as_bytes()).expect("cells").nodes.len(), cells + 1);
        assert_eq!(reader.parse_blif(b".inputs a\n.outputs a\n").expect("a wire").outputs, [("a".to_owned(), node(0))]);
        assert_eq!(reader.parse_bristol(b"1 2\n1 1\n1 1\n1 1 0 1 INV\n").expect("a cell").outputs, [("1".to_owned(), node(1))]);
    }
}
