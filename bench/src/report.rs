//! Turns measured lines into ratio, growth and memory lines (docs/benchmarks.txt), docs/BENCHMARKS.md and its two charts.
//! Usage: report MACHINE FOLDER MEMORY TIMES.., a file of times for each layout.
mod cases;
mod chart;
mod growth_chart;

use cases::{Case, Cases, Measured, cases, growth, shown};
use std::collections::{BTreeMap, BTreeSet};
use std::fmt::Write;

/// The parts of the table "Evaluate and run".
const RUNS: [&str; 6] = ["evaluate", "crate-evaluate", "crate-evaluator", "run", "run-plain", "run-refused"];

fn number(n: Option<f64>) -> String {
    n.map_or("-".to_owned(), shown)
}

fn time(nanoseconds: Option<f64>) -> String {
    match nanoseconds {
        None => "over 1 s".to_owned(),
        Some(t) if t < 1e6 => format!("{:.0} µs", t / 1e3),
        Some(t) => format!("{:.1} ms", t / 1e6),
    }
}

fn bytes(n: f64) -> String {
    if n < 10_000.0 {
        format!("{n:.0}")
    } else if n < 1e7 {
        format!("{:.0} KB", n / 1e3)
    } else {
        format!("{:.1} MB", n / 1e6)
    }
}

/// The lines that a script reads.
fn lines(times: &Cases, memory: &Cases) -> String {
    let mut out = String::new();
    let mut each = |word: &str, case: &Case, size: usize, numbers: &[String]| {
        let _ = writeln!(out, "{word} {} {} {size} {} {}", case.part, case.subject, case.kind, numbers.join(" "));
    };
    for (case, sizes) in times {
        for (size, measured) in sizes {
            each("ratio", case, *size, &[number(measured.ratio)]);
        }
    }
    for (case, sizes) in times {
        for (size, ours, theirs) in growth(sizes) {
            each("growth", case, size, &[number(ours), number(theirs)]);
        }
    }
    for (case, sizes) in memory {
        for (size, measured) in sizes {
            each("memory", case, *size, &[number(measured.ratio)]);
        }
    }
    out
}

/// A ratio, or the time of the one side that finished.
fn cell(measured: Option<&Measured>) -> String {
    match measured {
        None => String::new(),
        Some(Measured { ratio: Some(ratio), .. }) => number(Some(*ratio)),
        Some(Measured { ours: Some(ours), .. }) => format!("{}; reference over 1 s", time(Some(*ours))),
        Some(Measured { theirs, .. }) => format!("over 1 s; reference {}", time(*theirs)),
    }
}

/// A table of ratios: a row for each case of the parts, a column for each of the sizes, and the times at the largest of them.
fn ratios(times: &Cases, parts: &[&str], sizes: &[usize]) -> String {
    let mut out = String::from("| |");
    for size in sizes {
        let _ = write!(out, " {size} |");
    }
    out.push_str(" largest, here | the reference |\n|---|");
    out.push_str(&"---|".repeat(sizes.len() + 2));
    for (case, measured) in times.iter().filter(|(case, _)| parts.contains(&case.part.as_str())) {
        let _ = write!(out, "\n| {} {} {} |", case.part, case.subject, case.kind);
        for size in sizes {
            let _ = write!(out, " {} |", cell(measured.get(size)));
        }
        let largest =
            measured.iter().rev().find(|(size, m)| sizes.contains(size) && m.ratio.is_some()).map(|(_, m)| *m).unwrap_or_default();
        let _ = write!(out, " {} | {} |", time(largest.ours), time(largest.theirs));
    }
    out + "\n"
}

fn growths(times: &Cases) -> String {
    let grown: Vec<(&Case, BTreeMap<usize, String>)> = times
        .iter()
        .map(|(case, sizes)| {
            (case, growth(sizes).into_iter().map(|(size, ours, theirs)| (size, format!("{} / {}", number(ours), number(theirs)))).collect())
        })
        .filter(|(_, row): &(_, BTreeMap<usize, String>)| !row.is_empty())
        .collect();
    let mut out = String::new();
    let groups: BTreeSet<Vec<usize>> = grown.iter().map(|(_, row)| row.keys().copied().collect()).collect();
    for sizes in groups {
        out.push_str("| |");
        for size in &sizes {
            let _ = write!(out, " to {size} |");
        }
        out.push_str("\n|---|");
        out.push_str(&"---|".repeat(sizes.len()));
        for (case, row) in grown.iter().filter(|(_, row)| row.keys().eq(sizes.iter())) {
            let _ = write!(out, "\n| {} {} {} |", case.part, case.subject, case.kind);
            for text in row.values() {
                let _ = write!(out, " {text} |");
            }
        }
        out.push_str("\n\n");
    }
    out
}

fn memories(memory: &Cases) -> String {
    let mut out = String::from("| | size | lent or held | the reference | ratio |\n|---|---|---|---|---|");
    for (case, sizes) in memory {
        for (size, m) in sizes {
            let (ours, theirs) = (m.ours.unwrap_or(0.0), m.theirs.unwrap_or(0.0));
            let _ = write!(
                out,
                "\n| {} {} {} | {size} | {} | {} | {} |",
                case.part,
                case.subject,
                case.kind,
                bytes(ours),
                bytes(theirs),
                number(m.ratio)
            );
        }
    }
    out + "\n"
}

fn page(machine: &str, layouts: usize, times: &Cases, memory: &Cases) -> String {
    let spreads: Vec<f64> = times.values().flat_map(|sizes| sizes.values().filter_map(|measured| measured.spread)).collect();
    let powers = [1_000, 10_000, 100_000, 1_000_000];
    format!(
        "# Benchmarks\n\n\
One run of `bench/run [REFERENCE]`, which writes this page and its charts. Machine: {machine}. A ratio is this library's time over that of the \
unchanged Rust reference on the same input: below 1 this library is faster.\n\n\
![ratios](benchmarks.svg)\n\n\
[benchmarks.txt](benchmarks.txt) has all ratios as lines for a script, `ratio PART SUBJECT SIZE KIND NUMBER`, and lines `growth` (this library's, the \
reference's) and `memory` of the same form.\n\n\
How it is measured:\n\n\
- Both sides in one program, in turn; CPU time of the thread, the shortest of several. The program is linked in {layouts} layouts (the functions in \
another order), since the place of a tight loop alone can change its time; the median over the layouts is shown. From layout to layout, \
the machine's noise included, a case's ratios differ by a factor of {} in the middle, {} at most.\n\
- This library gets areas that were allocated once and just fit, filled with old words before the first call; later calls find what the one before \
left. They are not cleared between calls: what a call clears is in its time. `roomy` areas would do for any text of that length.\n\
- The reference takes a `&str` and allocates; dropping its result is not in its time. Its map of inputs for `evaluate` is made beforehand.\n\
- `run` has no counterpart in the reference and stands beside its `evaluate`, which takes the storage order and checks nothing; the list is that of a \
window (window 1 gives the storage order). `checked`: the reference's `validate_topological` is called before its `evaluate`, as who wants a circuit \
checked has to; this library's `evaluate` and run check it in any case. `run-plain` is the run over the time of a plain loop in Rust (bench/src/plain.rs) that makes the \
same checks and the same steps over the same records and list, each index tested as Rust does. The run is plain on purpose: a form that worked out \
cells in blocks while it checked them took 0.26 to 0.98 of the reference's `evaluate` (DECISIONS 53 says what it gave for that). `sweep` goes over all numbered assignments (the size is the number of cells).\n\
- `mixed` is `layered` with a quarter of the cells, chosen at random, cut to their first wire (NOT or BUFF), and with a constant for the second wire \
of one in a hundred of the others; `late` is `layered` with one wire in its last cell alone. `run-refused` is a run that this library refuses, beside the reference's `evaluate` of the sound circuit: in \
`window-64-twice` the list ends with its first cell again, in `broken-last` the last record has a table that no cell can have.\n\
- `crate-` is the Rust crate in `rust/`, which makes its areas, records and structs anew at each call; its `Evaluator` keeps them.\n\
- A side that is expected to take over a second, judged by its growth so far, is left out.\n\
- Before the times both sides' answers are compared: circuits of texts up to 100 KB, orders of up to 10,000 cells, the outputs of `evaluate` and \
of the run without unknowns at each size; of a refused run the refusal's number is tested. The others are timed alone; `compare/run` is what \
compares.\n\n\
## Reading, by bytes of the text\n\n{}\n\
Inputs alone, with names of 12 bytes made to be alike in both hashes of the name table, over this library's time with names by chance:\n\n{}\n\
## Schedule, by cells\n\n{}\n\
## Evaluate and run, by cells\n\n{}\n{}\n\
## Growth of the time when the size doubles: this library / the reference\n\n![growth](benchmarks-growth.svg)\n\n{}\
## Memory\n\n\
Bytes lent to this library's call (held at most by the Rust crate's), and the most that the reference holds during its call.\n\n{}",
        number(cases::median(spreads.clone())),
        number(spreads.iter().copied().reduce(f64::max)),
        ratios(times, &["read", "crate-read"], &[10_240, 102_400, 1_048_576]),
        ratios(times, &["read-alike"], &[243_780, 487_530, 975_030]),
        ratios(times, &["schedule", "crate-schedule"], &powers),
        ratios(times, &RUNS, &[100, 1_000, 10_000, 62_500, 100_000, 1_000_000]),
        ratios(times, &["sweep", "crate-sweep"], &[100, 1_000]),
        growths(times),
        memories(memory)
    )
}

fn main() {
    let words: Vec<String> = std::env::args().collect();
    let [_, machine, folder, memory, times @ ..] = &words[..] else { panic!("usage: report MACHINE FOLDER MEMORY TIMES..") };
    let read = |path: &String| std::fs::read_to_string(path).expect(path);
    let layouts: Vec<String> = times.iter().map(read).collect();
    let (times, memory) = (cases("time", &layouts), cases("memory", &[read(memory)]));
    let numbers = lines(&times, &memory);
    print!("{numbers}");
    std::fs::write(format!("{folder}/benchmarks.txt"), numbers).expect("the lines are written");
    std::fs::write(format!("{folder}/benchmarks.svg"), chart::svg(&times)).expect("the chart is written");
    std::fs::write(format!("{folder}/benchmarks-growth.svg"), growth_chart::svg(&times)).expect("the chart is written");
    std::fs::write(format!("{folder}/BENCHMARKS.md"), page(machine, layouts.len(), &times, &memory)).expect("the page is written");
}
