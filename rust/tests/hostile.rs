//! Texts that nobody means well with: no panic, and no area that is too short.
use relay::{BoolCircuit, Reader, Refusal};

/// Texts of the longest length whose every byte makes records, as near as the format allows.
#[test]
fn dense_texts() {
    let names = |count: usize| (0..count).map(|k| format!("{k:x}")).collect::<Vec<_>>();
    let inputs = format!(".outputs 0\n.inputs {}", names(30_000).join(" "));
    assert_eq!(BoolCircuit::parse_blif(&inputs).expect("inputs alone").inputs.len(), 30_000);
    let folded = format!(".outputs 0\n.inputs \\\n{}", names(30_000).join(" \\\n"));
    assert_eq!(BoolCircuit::parse_blif(&folded).expect("an input a line").inputs.len(), 30_000);
    let outputs = format!(".inputs a\n.outputs{}", " a".repeat(524_000));
    assert_eq!(BoolCircuit::parse_blif(&outputs).expect("outputs alone").outputs.len(), 524_000);
    let hidden = format!(" \\\n.inputs a \\\n b\n.outputs # c\n\t.outputs \\\n#\n{}", "a\\\nb\\\n".repeat(100_000));
    assert_eq!(BoolCircuit::parse_blif(&hidden).expect("outputs a line").outputs.len(), 200_000);
    let gate = format!("INPUT(a)\nOUTPUT(y)\ny=OR(a{})\n", ",a".repeat(524_000));
    assert_eq!(BoolCircuit::parse_bench(&gate).expect("one gate").nodes.len(), 524_001);
    let gates = format!("INPUT(a)\n{}", names(30_000).iter().map(|n| format!("z{n}=NOT(a)\n")).collect::<String>());
    assert_eq!(BoolCircuit::parse_bench(&gates), Err(Refusal::NoOutputs));
    let joined = format!("INPUT(a)\n{}", "OUTPUT\\\n(a)\n".repeat(80_000));
    assert_eq!(BoolCircuit::parse_bench(&joined).expect("outputs alone").outputs.len(), 80_000);
}

struct Random(u64);

impl Random {
    fn below(&mut self, n: usize) -> usize {
        self.0 ^= self.0 << 13;
        self.0 ^= self.0 >> 7;
        self.0 ^= self.0 << 17;
        (self.0 >> 20) as usize % n
    }
}

const PIECES: [&[&[u8]]; 3] = [
    &[
        b".inputs a b\n",
        b".outputs a b\n",
        b".outputs y \\\n",
        b".names a b y\n",
        b"11 1\n",
        b"-0 1\n",
        b".names b t\n",
        b"1 1\n",
        b".names k\n",
        b".end\n",
        b" \\\n",
    ],
    &[
        b"INPUT(a)\n",
        b"INPUT(b)\n",
        b"OUTPUT(y)\n",
        b"output(a)\n",
        b"y = AND(a, b)\n",
        b"t = NOT(a)\n",
        b"u=xnor(a,b,a,TRUE)\n",
        b"OUTPUT \\\n(b)\n",
        b"k = BUFF(FALSE)\n",
    ],
    &[
        b"1 3\n1 2\n1 1\n",
        b"2 4\n1 2\n1 1\n",
        b"0 2\n1 2\n0\n",
        b"1 1\n",
        b"2 1 0 1 2 AND\n",
        b"1 1 2 3 INV\n",
        b"2 1 1 0 3 xor\n",
        b"1 1 0 2 EQW\n",
        b"0\n",
    ],
];
const STRAY: [&[u8]; 12] = [b"\n", b"\\\n", b"#", b" ", b"\x0b", b"\x00", b"\x7f", b"\xff", b"(", b"=", b".", b"+"];

/// Lines of a format in any order, now and then with a stray piece between: what is accepted passes the check and is run.
#[test]
fn random_texts() {
    let mut random = Random(0x1234_5678_9abc_def1);
    let mut reader = Reader::default();
    let mut accepted = [0; 3];
    for turn in 0..30_000 {
        let format = turn % 3;
        let mut text = Vec::new();
        for _ in 0..random.below(9) {
            text.extend_from_slice(PIECES[format][random.below(PIECES[format].len())]);
            if random.below(12) == 0 {
                text.extend_from_slice(STRAY[random.below(STRAY.len())]);
            }
        }
        let reads = [reader.parse_blif(&text), reader.parse_bench(&text), reader.parse_bristol(&text)];
        for (read, accepted) in reads.into_iter().zip(&mut accepted) {
            assert_ne!(read, Err(Refusal::NoRoom), "{:?}", String::from_utf8_lossy(&text));
            let Ok(circuit) = read else { continue };
            *accepted += 1;
            circuit.validate_topological().expect("a circuit that was read");
            let order = circuit.scheduled_gates_by_key(2, |id| (0, 0, id)).expect("an order");
            let unknown = vec![None; circuit.inputs.len()];
            assert_eq!(circuit.evaluator().run(&order, &unknown).expect("outputs").len(), circuit.outputs.len());
        }
    }
    assert!(accepted.iter().all(|times| *times > 20), "{accepted:?} accepted: the texts are too wild to say anything");
}

#[test]
fn empty_texts() {
    for text in ["", "\n", "\\", "#", " \\\n \\\n", "\0"] {
        assert!(BoolCircuit::parse_blif(text).is_err());
        assert!(BoolCircuit::parse_bench(text).is_err());
        assert_eq!(BoolCircuit::parse_bristol(text), Err(Refusal::Malformed));
    }
}
