//! Netlist texts of a given length, in three formats and several ways of naming.

pub struct Random(u64);

impl Random {
    pub fn new(seed: u64) -> Self {
        Self(seed.wrapping_mul(0x9E37_79B9_7F4A_7C15) | 1)
    }
    pub fn below(&mut self, n: usize) -> usize {
        self.0 ^= self.0 << 13;
        self.0 ^= self.0 >> 7;
        self.0 ^= self.0 << 17;
        (self.0.wrapping_mul(0x2545_F491_4F6C_DD1D) >> 16) as usize % n
    }
}

#[derive(Clone, Copy, PartialEq, Eq)]
pub enum Format {
    Blif,
    Bench,
    Bristol,
}

#[derive(Clone, Copy, PartialEq, Eq)]
pub enum Naming {
    /// `n12345`, as synthesis tools write them.
    Counted,
    /// One to four letters.
    Short,
    /// A path through a hierarchy.
    Long,
}

impl Format {
    pub fn word(self) -> &'static str {
        match self {
            Format::Blif => "blif",
            Format::Bench => "bench",
            Format::Bristol => "bristol",
        }
    }
}

impl Naming {
    pub fn word(self) -> &'static str {
        match self {
            Naming::Counted => "n12345",
            Naming::Short => "short",
            Naming::Long => "long",
        }
    }

    fn name(self, k: usize) -> String {
        match self {
            Naming::Counted => format!("n{k}"),
            Naming::Short => {
                let (mut left, mut name) = (k, String::new());
                loop {
                    name.push((b'a' + (left % 26) as u8) as char);
                    left /= 26;
                    if left == 0 {
                        return name;
                    }
                    left -= 1;
                }
            }
            Naming::Long => format!("tuner/band_{}/driver_{}/coil_{}/net_{k}", k % 7, k / 7 % 31, k / 217 % 13),
        }
    }
}

const INPUTS: usize = 16;
const OUTPUTS: usize = 8;

fn operand(random: &mut Random, k: usize) -> usize {
    // mostly near, as in a real netlist, sometimes anywhere before
    if random.below(4) == 0 { random.below(k) } else { k - 1 - random.below(k.min(200)) }
}

fn blif(size: usize, naming: Naming) -> String {
    let mut random = Random::new(7);
    let mut text = String::from(".model relay\n.inputs");
    for k in 0..INPUTS {
        text.push(' ');
        text.push_str(&naming.name(k));
    }
    text.push('\n');
    let mut k = INPUTS;
    loop {
        let (a, b) = (operand(&mut random, k), operand(&mut random, k));
        let rows = ["11 1\n", "1- 1\n-1 1\n", "10 1\n01 1\n", "0- 1\n-0 1\n", "00 1\n", "00 0\n"][random.below(6)];
        let cell = format!(".names {} {} {}\n{rows}", naming.name(a), naming.name(b), naming.name(k));
        let end = format!(".outputs {}\n.end\n", (0..OUTPUTS).map(|o| naming.name(k - 1 - o)).collect::<Vec<_>>().join(" "));
        if text.len() + cell.len() + end.len() > size {
            return text + &end;
        }
        text.push_str(&cell);
        k += 1;
    }
}

fn bench(size: usize, naming: Naming) -> String {
    let mut random = Random::new(8);
    let mut text = String::new();
    for k in 0..INPUTS {
        text.push_str(&format!("INPUT({})\n", naming.name(k)));
    }
    let mut k = INPUTS;
    loop {
        let width = 2 + random.below(4) / 3;
        let args: Vec<String> = (0..width).map(|_| naming.name(operand(&mut random, k))).collect();
        let operation = ["AND", "NAND", "OR", "NOR", "XOR", "XNOR"][random.below(6)];
        let gate = format!("{} = {operation}({})\n", naming.name(k), args.join(", "));
        let end: String = (0..OUTPUTS).map(|o| format!("OUTPUT({})\n", naming.name(k - 1 - o))).collect();
        if text.len() + gate.len() + end.len() > size {
            return text + &end;
        }
        text.push_str(&gate);
        k += 1;
    }
}

fn bristol(size: usize) -> String {
    let mut random = Random::new(9);
    let mut rows = String::new();
    let mut k = INPUTS;
    loop {
        let operation = ["AND", "XOR", "AND", "XOR", "INV"][random.below(5)];
        let row = if operation == "INV" {
            format!("1 1 {} {k} INV\n", operand(&mut random, k))
        } else {
            format!("2 1 {} {} {k} {operation}\n", operand(&mut random, k), operand(&mut random, k))
        };
        let head = format!("{} {k}\n1 {INPUTS}\n1 {OUTPUTS}\n", k - INPUTS);
        if head.len() + rows.len() + row.len() > size {
            return head + &rows;
        }
        rows.push_str(&row);
        k += 1;
    }
}

/// A netlist of at most `size` bytes, and close to it.
pub fn text(format: Format, naming: Naming, size: usize) -> String {
    match format {
        Format::Blif => blif(size, naming),
        Format::Bench => bench(size, naming),
        Format::Bristol => bristol(size),
    }
}
