//! Texts of the three formats: random netlists, damaged copies of them, short texts over telling bytes, and boundaries.

#[derive(Clone, Copy, Debug, PartialEq, Eq, PartialOrd, Ord)]
pub enum Format {
    Blif,
    Bench,
    Bristol,
}

/// Random numbers; while `sound` no fault is put into a text on purpose.
pub struct Random {
    state: u64,
    sound: bool,
}

impl Random {
    pub fn new(seed: u64) -> Self {
        Self { state: seed.wrapping_mul(0x9E37_79B9_7F4A_7C15) | 1, sound: false }
    }
    pub fn next(&mut self) -> u64 {
        self.state ^= self.state << 13;
        self.state ^= self.state >> 7;
        self.state ^= self.state << 17;
        self.state.wrapping_mul(0x2545_F491_4F6C_DD1D) >> 11
    }
    pub fn below(&mut self, n: usize) -> usize {
        (self.next() % n as u64) as usize
    }
    pub fn chance(&mut self, percent: usize) -> bool {
        self.below(100) < percent
    }
    fn fault(&mut self, percent: usize) -> bool {
        !self.sound && self.chance(percent)
    }
    /// How many gates a text has.
    fn gates(&mut self) -> usize {
        let most = if self.sound { 40 } else { 7 };
        self.below(most)
    }
    fn pick<'a>(&mut self, words: &[&'a str]) -> &'a str {
        words[self.below(words.len())]
    }
}

const BLANKS: [&str; 4] = [" ", "  ", "\t", " \x0b"];
const NAMES: [&str; 12] = ["a", "b", "t", "u", "y", "ab", "ba", "n1", "$x", "TRUE", "FALSE", "out$bench$1"];

fn name(random: &mut Random, known: &[String], fresh: bool) -> String {
    if !fresh && !known.is_empty() && !random.fault(4) {
        return known[random.below(known.len())].clone();
    }
    if random.sound {
        return format!("s{}", known.len());
    }
    if random.chance(60) {
        return format!("n{}", random.below(40));
    }
    random.pick(&NAMES).to_owned()
}

fn row(random: &mut Random, width: usize, value: &str) -> String {
    let width = if random.fault(2) { random.below(4) } else { width };
    let mut pattern: String = (0..width).map(|_| random.pick(&["0", "1", "-", "0", "1", "-", "0", "1", "2", "x"])).collect();
    let value = if random.fault(5) { random.pick(&["0", "1", "2", ""]) } else { value };
    if !value.is_empty() {
        pattern.push_str(random.pick(&BLANKS));
        pattern.push_str(value);
    }
    if random.fault(1) {
        pattern.push_str(" 1");
    }
    pattern
}

fn blif(random: &mut Random) -> String {
    let mut lines = vec![".model m".to_owned()];
    let mut known: Vec<String> = Vec::new();
    let inputs: Vec<String> = (0..random.below(5)).map(|i| if random.fault(10) { name(random, &[], true) } else { format!("i{i}") }).collect();
    lines.push(format!(".inputs {}", inputs.join(random.pick(&BLANKS))));
    known.extend(inputs);
    for _ in 0..random.gates() {
        let width = if random.fault(3) { 3 } else { random.below(3) };
        let ins: Vec<String> = (0..width).map(|_| name(random, &known, false)).collect();
        let fresh = !random.fault(2);
        let out = name(random, &known, fresh);
        let sep = random.pick(&BLANKS);
        lines.push(format!(".names{sep}{}{sep}{out}", ins.join(sep)));
        let value = random.pick(&["1", "1", "1", "0"]);
        for _ in 0..random.below(4) {
            if width == 0 {
                lines.push(if random.fault(20) { "2".to_owned() } else { random.pick(&["1", "0", "1 1", "x 0", "1"]).to_owned() });
            } else {
                lines.push(row(random, width, value));
            }
        }
        known.push(out);
    }
    let outs: Vec<String> = (0..random.below(4)).map(|_| name(random, &known, false)).collect();
    let at = random.below(lines.len()) + 1;
    lines.insert(if random.chance(80) { lines.len() } else { at }, format!(".outputs {}", outs.join(" ")));
    if random.chance(70) {
        lines.push(".end".to_owned());
    }
    if random.fault(3) {
        lines.push(random.pick(&[".latch a b", "junk", ".exdc", ".", "1 1"]).to_owned());
    }
    layout(random, &lines, true)
}

fn bench(random: &mut Random) -> String {
    let mut lines = Vec::new();
    let mut known: Vec<String> = vec!["TRUE".to_owned(), "FALSE".to_owned()];
    for i in 0..random.below(5) {
        let n = if random.fault(10) { name(random, &known, true) } else { format!("i{i}") };
        lines.push(format!("{}({n})", random.pick(&["INPUT", "INPUT", "input", " INPUT "])));
        known.push(n);
    }
    for _ in 0..random.gates() {
        let op = random.pick(&["AND", "NAND", "OR", "NOR", "XOR", "XNOR", "and", "Nand", "NOT", "INV", "BUFF", "BUF", "xnor"]);
        let op = if random.fault(5) { "DFF" } else { op };
        let one = ["NOT", "INV", "BUFF", "BUF"].contains(&op);
        let width = if random.fault(5) { random.below(4) } else if one { 1 } else { 2 + random.below(4) };
        let args: Vec<String> = (0..width).map(|_| name(random, &known, false)).collect();
        let fresh = !random.fault(2);
        let out = if random.chance(5) { format!("two words {}", if random.fault(50) { 0 } else { known.len() }) } else { name(random, &known, fresh) };
        let space = random.pick(&["", " ", "  "]);
        lines.push(format!("{out}{space}={space}{op}({})", args.join(random.pick(&[",", ", ", " , "]))));
        known.push(out);
    }
    for _ in 0..random.below(4) {
        lines.push(format!("OUTPUT({})", name(random, &known, false)));
    }
    if random.fault(4) {
        lines.push(random.pick(&["x = AND(a,,b)", "= AND(i0)", "x = (i0)", "x = AND)i0(", "WIRE(i0)", "INPUT(a,b)", "x = AND(i0) y", "x AND(i0)", "x = AND(i0"]).to_owned());
    }
    layout(random, &lines, true)
}

fn bristol(random: &mut Random) -> String {
    let inputs = random.below(4) + usize::from(random.sound);
    let mut driven: Vec<usize> = (0..inputs).collect();
    let gates = random.gates();
    let outs = random.below(3).min(gates);
    let wires = inputs + gates + usize::from(random.fault(5));
    let mut rows = Vec::new();
    for g in 0..gates {
        let op = random.pick(&["AND", "XOR", "INV", "EQW", "OR", "NOR", "NAND", "XNOR", "NOT", "BUF", "EQ", "and", "Inv"]);
        let arity = if ["INV", "EQW", "NOT", "BUF", "EQ", "Inv"].contains(&op) { 1 } else { 2 };
        let arity = if random.fault(3) { random.below(4) } else { arity };
        let ins: Vec<String> = (0..arity).map(|_| if driven.is_empty() || random.fault(2) { random.below(wires + 2).to_string() } else { driven[random.below(driven.len())].to_string() }).collect();
        let out = if random.fault(3) { random.below(wires + 1) } else { inputs + g };
        let plus = if random.chance(3) { "+" } else { "" };
        rows.push(format!("{arity} {} {} {plus}{out} {op}", if random.fault(2) { 2 } else { 1 }, ins.join(" ")));
        driven.push(inputs + g);
    }
    let shown = if random.fault(3) { gates + 1 } else { gates };
    let group = |random: &mut Random, total: usize| if total > 1 && random.chance(50) { format!("2 {} {}", 1, total - 1) } else { format!("1 {total}") };
    let mut lines = vec![format!("{shown} {wires}"), group(random, inputs), group(random, outs)];
    if random.fault(4) {
        let at = random.below(3);
        lines[at] = random.pick(&["x", "1", "0", "1 2 3", "18446744073709551615 1", "1 18446744073709551616", "-1 2", "+3 +4", "", "2 1"]).to_owned();
    }
    lines.extend(rows);
    layout(random, &lines, false)
}

/// Lines as a text: comments, blank lines, ends of line of either kind and, where the format has them, continuations here and there.
fn layout(random: &mut Random, lines: &[String], continued: bool) -> String {
    let end = random.pick(&["\n", "\n", "\r\n"]);
    let mut text = String::new();
    for line in lines {
        if random.chance(3) {
            text.push_str(random.pick(&["# note", "", "  ", " # \\"]));
            text.push_str(end);
        }
        let mut line = line.clone();
        if line.contains(' ') && (if continued { random.chance(4) } else { random.fault(2) }) {
            line = line.replacen(' ', &format!(" \\{end}"), 1);
        }
        if random.chance(3) {
            line.push_str(" # tail");
        }
        text.push_str(&line);
        text.push_str(end);
    }
    text
}

fn damaged(random: &mut Random, text: &[u8]) -> Vec<u8> {
    let mut out = text.to_vec();
    for _ in 0..1 + random.below(3) {
        let at = random.below(out.len() + 1);
        match random.below(4) {
            0 if at < out.len() => { out.remove(at); }
            1 if at < out.len() => out[at] = b"\n\\# .01-=(),+9a"[random.below(14)],
            2 => out.insert(at, b"\n\\# .01-=(),+9a"[random.below(14)]),
            _ => out.truncate(at),
        }
    }
    out
}

fn short(format: Format, random: &mut Random) -> Vec<u8> {
    let bytes: &[u8] = match format {
        Format::Blif => b".names inputs outputs model end 01-a\n\n\n \\#",
        Format::Bench => b"ab=(),INPUTOUTPUTANDNOT \n\n#\\",
        Format::Bristol => b"0 1 2 3 4\n\n\n1 1 1 AND INV +-",
    };
    (0..random.below(40)).map(|_| bytes[random.below(bytes.len())]).collect()
}

pub fn texts(format: Format, count: usize, random: &mut Random) -> Vec<Vec<u8>> {
    let mut all = Vec::with_capacity(count);
    while all.len() < count {
        random.sound = random.chance(40);
        let whole = match format {
            Format::Blif => blif(random),
            Format::Bench => bench(random),
            Format::Bristol => bristol(random),
        };
        for _ in 0..2 {
            all.push(damaged(random, whole.as_bytes()));
        }
        all.push(whole.into_bytes());
        all.push(short(format, random));
    }
    all
}
