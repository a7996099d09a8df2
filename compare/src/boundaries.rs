//! Texts at the boundaries of 01: lengths, bytes, line ends, continuations, numbers, names of one bucket, rows of every shape.
use crate::generate::Format;

const BLIF: &str = ".model m\n.inputs a b\n.outputs y a y\n# note\n.names a b \\\n t\n10 1\n.names a u\n0 1\n.names t u y\n1- 0\n.names k\n1\n.end\n";
const BENCH: &str = "# note\nINPUT(a)\nINPUT( b c )\nOUTPUT(y)\nOUTPUT(TRUE)\nt = NAND(a, b c, \\\n a)\nu=not(t)\nk = BUFF(FALSE)\ny = xor(u, k)\n";
const BRISTOL: &str = "3 6\n2 1 1 # note\n1 2\n\n2 1 0 1 3 AND\n1 1 +3 4 INV\n2 1 0004 2 5 XOR\n1 1 0 2 EQW\n";

/// 01: a text has at most so many bytes.
const LONGEST: usize = 1_048_576;

/// Whole texts that are accepted or nearly so; every other boundary starts from them.
fn whole(format: Format) -> Vec<String> {
    match format {
        Format::Blif => vec![BLIF.to_owned()],
        Format::Bench => vec![BENCH.to_owned()],
        Format::Bristol => vec![BRISTOL.to_owned(), BRISTOL.replace("3 6", "4 6").replace("2 1 0004 2 5 XOR\n1 1 0 2 EQW", "1 1 0 2 EQW\n2 1 0004 2 5 XOR")],
    }
}

/// A text with each byte taken away, and with each telling byte put in and put over at each place, and cut off at each place.
fn edits(text: &str) -> Vec<Vec<u8>> {
    let bytes = text.as_bytes();
    let telling = [0, 8, 9, 10, 11, 12, 13, 28, 31, 32, b'#', b'\\', b'.', b'-', b'+', b'0', b'=', b'(', b')', b',', 127, 128, 255];
    let mut all = Vec::new();
    for at in 0..=bytes.len() {
        all.push(bytes[..at].to_vec());
        all.push([&bytes[..at], b"\\"].concat());
        if at < bytes.len() {
            all.push([&bytes[..at], &bytes[at + 1..]].concat());
        }
        for byte in telling {
            all.push([&bytes[..at], &[byte], &bytes[at..]].concat());
            if at < bytes.len() {
                all.push([&bytes[..at], &[byte], &bytes[at + 1..]].concat());
            }
        }
    }
    all
}

/// The same lines laid out otherwise.
fn layouts(text: &str) -> Vec<Vec<u8>> {
    vec![
        text.to_owned(),
        text.replace('\n', "\r\n"),
        text.replace(' ', "\t"),
        text.replace(' ', " \\\n"),
        text.replace(' ', " \\\n\\\n # note\n  \\\n"),
        text.replace('\n', " \\\n\n"),
        text.replace('\n', "\n\n # \\\n"),
        text.trim_end().to_owned(),
        format!("{}\\", text.trim_end()),
        format!("{text}\\"),
        format!("{text} \\\n\\\n"),
        format!("\\\n{text}"),
        format!("# \x7f\0\n{text}"),
        text.to_uppercase(),
        text.to_lowercase(),
        format!("{text}{text}"),
    ]
    .into_iter()
    .map(String::into_bytes)
    .chain([[text.as_bytes(), "# \u{80}\n".as_bytes()].concat(), [text.as_bytes(), &[b'#', 128]].concat()])
    .collect()
}

/// Texts of exactly `len` bytes: blanks alone, and a whole text behind a comment.
fn long(text: &str, len: usize) -> Vec<Vec<u8>> {
    let note = format!("#{}\n{text}", "x".repeat(len.saturating_sub(text.len() + 2)));
    vec![vec![b' '; len], vec![b'\n'; len], note.into_bytes()]
}

fn blif() -> Vec<String> {
    let mut all = Vec::new();
    let bytes = ["0", "1", "-", "2"];
    let values = ["", " 0", " 1", " 2", " 1 1", "\t1", " -", " 01"];
    let mut patterns = vec![String::new()];
    let mut rows = Vec::new();
    for _ in 0..3 {
        patterns = patterns.iter().flat_map(|p| bytes.iter().map(move |b| format!("{p}{b}"))).collect();
        rows.extend(patterns.iter().flat_map(|p| values.iter().map(move |v| format!("{p}{v}"))));
    }
    let head = ".inputs a b c\n.outputs y\n";
    for inputs in ["", "a ", "a b ", "a a ", "a b c "] {
        all.push(format!("{head}.names {inputs}y\n"));
        for row in &rows {
            all.push(format!("{head}.names {inputs}y\n{row}\n"));
        }
        for (i, row) in rows.iter().enumerate().filter(|(_, row)| row.len() <= 4) {
            for other in rows.iter().skip(i % 19).step_by(19).filter(|row| row.len() <= 4) {
                all.push(format!("{head}.names {inputs}y\n{row}\n{other}\n"));
            }
        }
    }
    for line in [".names", ".names y", ".names a y", ".names q y", ".names b", ".inputs", ".inputs a", ".inputs d d", ".outputs", ".outputs q", ".outputs y y y", ".latch a y", ".subckt s x=a", ".gate and2 A=a B=b O=y", ".exdc", ".", "..", ".Names a y", ".INPUTS d", ".ends", "junk", "1 1", "-", "TRUE", ".names TRUE y", ".inputs TRUE FALSE"] {
        all.push(format!("{head}{line}\n"));
        all.push(format!("{line}\n{head}.names y\n"));
        all.push(format!("{head}.names a y\n1 1\n{line}\n"));
        all.push(format!(".inputs a b\n{line}\n"));
    }
    all
}

fn bench() -> Vec<String> {
    let mut all = Vec::new();
    let operations = ["AND", "NAND", "OR", "NOR", "XOR", "XNOR", "NOT", "INV", "BUFF", "BUF", "DFF", "LUT 0x8", "MUX", "xnor", "Buf", "vdd", "gnd", "", " "];
    let arguments = ["", " ", "a", "a,b", "a, b ,a", "a,a", "a,", ",a", "a,,b", ",", "q", "a,q", "q,a", "TRUE", "TRUE,FALSE", "True,a", "a b", "(a)", "a),(b", "a)(", "a=b"];
    for operation in operations {
        for argument in arguments {
            for (before, after) in [("(", ")"), (" ( ", " ) "), ("(", ") x"), ("(", ""), ("", ")"), (")", "("), ("", ""), ("((", "))")] {
                all.push(format!("INPUT(a)\nINPUT(b)\nOUTPUT(y)\ny = {operation}{before}{argument}{after}\n"));
            }
        }
    }
    let head = "INPUT(a)\n";
    for line in ["INPUT(b)", "INPUT(a)", "input(a)", "INPUT(TRUE)", "OUTPUT(FALSE)", "OUTPUT(q)", "OUTPUT(a)\nOUTPUT(a)", "OUTPUT()", "OUTPUT(a,a)", "OUTPUT(a) x", "OUTPUT a", "WIRE(a)", "(a)", "a", "= NOT(a)", " = ", "=", "a = NOT(a)", "TRUE = NOT(a)", "y = NOT(y)\nOUTPUT(y)", "true = NOT(a)\nOUTPUT(true)", "y == NOT(a)", "y = = NOT(a)", "two words = NOT(a)\nOUTPUT(two words)", "y = vdd", "y = gnd", "y = LUT 0x8 ( a )", "OUTPUT(a)\ny = NOT(a)\ny = NOT(a)"] {
        all.push(format!("{head}{line}\n"));
        all.push(format!("{line}\n{head}OUTPUT(a)\n"));
        all.push(line.to_owned());
    }
    for inputs in [2usize, 3, 255, 256, 1022, 1023, 1024, 1025, 5000] {
        for operation in ["AND", "NAND", "XNOR"] {
            all.push(format!("INPUT(a)\nOUTPUT(y)\ny = {operation}({})\n", vec!["a"; inputs].join(",")));
        }
    }
    all
}

fn bristol() -> Vec<String> {
    let mut all = Vec::new();
    let numbers = ["0", "1", "2", "3", "+1", "+", "-0", "-1", "01", "00000000000000000000000000000002", "18446744073709551615", "18446744073709551616", "99999999999999999999", "1048576", "1048577", "4294967296", "x", "1.", "0x1"];
    for n in numbers {
        for header in ["# 3", "1 #", "1 # 3", "# #", "#", "1 3 #"] {
            all.push(format!("{}\n1 2\n1 1\n2 1 0 1 2 AND\n", header.replace('#', n)));
        }
        for group in ["#", "# 2", "1 #", "2 # 1", "2 1 #", "0 #", "2 # #", "3 # # #"] {
            all.push(format!("1 3\n{}\n1 1\n2 1 0 1 2 AND\n", group.replace('#', n)));
            all.push(format!("1 3\n1 2\n{}\n2 1 0 1 2 AND\n", group.replace('#', n)));
            all.push(format!("1 {n}\n{}\n1 1\n2 1 0 1 2 AND\n", group.replace('#', n)));
        }
        for row in ["# 1 0 1 2 AND", "2 # 0 1 2 AND", "# # 0 AND", "# 2 0 AND", "2 1 # 1 2 AND", "2 1 0 # 2 AND", "2 1 0 1 # AND", "1 1 # 2 INV", "1 1 # 2 EQW", "1 1 0 # EQ", "0 1 # AND", "1 # 0 2 INV", "2 1 # # 2 XOR"] {
            all.push(format!("1 3\n1 2\n1 1\n{}\n", row.replace('#', n)));
            all.push(format!("1 3\n1 2\n0\n{}\n", row.replace('#', n)));
        }
    }
    for operation in ["AND", "NAND", "OR", "NOR", "XOR", "XNOR", "NOT", "INV", "EQ", "EQW", "BUF", "BUFF", "MAND", "and", "Eqw", "inv", "LUT"] {
        for row in ["0 1 2", "1 1 0 2", "2 1 0 1 2", "3 1 0 1 0 2", "2 2 0 1 2 3", "1 0 0", "0 0", "2 1 0 3 2", "2 1 0 1 4", "2 1 0 1 0", "1 1 2 2", "1 1 0 1"] {
            all.push(format!("1 4\n1 2\n0\n{row} {operation}\n"));
            all.push(format!("1 4\n1 2\n1 1\n{row} {operation}\n"));
        }
    }
    for text in ["0 0\n0\n0\n", "0 1\n1 1\n0\n", "0 1\n1 1\n1 1\n", "0 1\n0\n1 1\n", "0 2\n1 1\n1 1\n", "1 1\n1 1\n0\n", "0 0\n0\n", "0 0 0\n0\n0\n", "0\n0\n0\n", "1 2\n1 1\n1 1\n1 1 0 1 EQW", "1 2\n1 1\n1 2\n1 1 0 1 EQW"] {
        all.push(text.to_owned());
    }
    all
}

/// Names whose bytes have one sum, and so one bucket.
fn one_bucket(count: usize) -> Vec<String> {
    let pair = |k: usize| [(b'A' + (k % 25) as u8) as char, (b'z' - (k % 25) as u8) as char];
    (0..count).map(|k| [pair(k), pair(k / 25), pair(k / 625)].concat().into_iter().collect()).collect()
}

/// Texts with many records: around 1,024 for the list programs, and many for the library.
fn many(format: Format) -> Vec<Vec<u8>> {
    let mut all = Vec::new();
    for count in [255usize, 256, 700, 1022, 1023, 1024, 1025, 3000] {
        let names = one_bucket(count);
        let text = match format {
            Format::Blif => format!(".inputs {}\n.outputs {}\n", names.join(" "), names.join(" \\\n")),
            Format::Bench => names.iter().map(|n| format!("INPUT({n})\n")).collect::<String>() + &format!("OUTPUT({})\n", names[count - 1]),
            Format::Bristol => format!("0 {count}\n1 {count}\n0\n"),
        };
        all.push(text.clone());
        all.push(match format {
            Format::Blif => format!("{text}.names {} {} q\n11 1\n.inputs {}\n", names[0], names[count - 1], names[count / 2]),
            Format::Bench => format!("{text}q = AND({}, {})\nINPUT({})\n", names[0], names[count - 1], names[count / 2]),
            Format::Bristol => format!("1 {}\n1 {count}\n1 1\n1 1 {} {count} INV\n", count + 1, count - 1),
        });
        all.push(match format {
            Format::Blif => format!(".inputs a\n{}.outputs n{}\n", (0..count).map(|k| format!(".names {} a n{k}\n11 1\n", if k == 0 { "a".to_owned() } else { format!("n{}", k - 1) })).collect::<String>(), count - 1),
            Format::Bench => format!("INPUT(a)\n{}OUTPUT(a)\n", "OUTPUT(a)\n".repeat(count - 1)),
            Format::Bristol => format!("{count} {}\n1 1\n1 {count}\n{}", count + 1, (0..count).map(|k| format!("1 1 {k} {} EQW\n", k + 1)).collect::<String>()),
        });
    }
    all.into_iter().map(String::into_bytes).collect()
}

/// Texts of many bytes: the limits of the list programs and of the library.
fn lengths(format: Format) -> Vec<Vec<u8>> {
    let text = &whole(format)[0];
    let mut all: Vec<Vec<u8>> = [32_767, 32_768, 32_769, 40_000, LONGEST - 1, LONGEST, LONGEST + 1].iter().flat_map(|len| long(text, *len)).collect();
    all.push([text.as_bytes(), &[128; 32_769]].concat());
    all.push(vec![128; LONGEST]);
    all.push(vec![128; LONGEST + 1]);
    all.push("\\\n".repeat(20_000).into_bytes());
    all.push([" \\\n".repeat(10_000).as_bytes(), text.as_bytes()].concat());
    all.push(text.replacen(' ', &" \\\n\t".repeat(8_000), 1).into_bytes());
    if format == Format::Bristol {
        all.push(b"0 1048576\n1 1048576\n0\n".to_vec());
        all.push(b"0 1048577\n1 1048577\n0\n".to_vec());
    }
    if format == Format::Bench {
        all.push(format!("INPUT(a)\nOUTPUT(y)\ny = NAND(a{})\n", ",a".repeat(500_000)).into_bytes());
        all.push("OUTPUT(TRUE)\n".repeat(80_000).into_bytes());
    }
    if format == Format::Blif {
        all.push(format!(".inputs a\n.outputs a{}\n", " a".repeat(500_000)).into_bytes());
        all.push(format!(".outputs n9\n{}", (0..90_000).map(|k| format!(".names n{k}\n")).collect::<String>()).into_bytes());
    }
    all
}

/// Texts that the list programs are given too.
pub fn small(format: Format) -> Vec<Vec<u8>> {
    let lines = match format {
        Format::Blif => blif(),
        Format::Bench => bench(),
        Format::Bristol => bristol(),
    };
    let mut all: Vec<Vec<u8>> = vec![Vec::new()];
    for blank in [" ", "\n", "\r\n", "\t\x0b\x0c \r\n \n", "#", "# note\n", "\\", "\\\n", "\0", "\x7f", "."] {
        all.push(blank.as_bytes().to_vec());
    }
    for text in whole(format) {
        all.extend(layouts(&text));
        all.extend(edits(&text));
    }
    all.extend(lines.into_iter().map(String::into_bytes));
    all
}

/// Texts of many records or bytes.
pub fn large(format: Format) -> Vec<Vec<u8>> {
    let mut all = many(format);
    all.extend(lengths(format));
    all
}
