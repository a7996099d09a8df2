//! Times this library and the reference on the same inputs, in turn. Prints `time PART SUBJECT SIZE KIND OURS THEIRS` in nanoseconds.
//! Usage: measure [read] [schedule] [runs]; all without a word.
mod circuits;
mod colliding;
mod plain;
mod reading;
mod running;
mod scheduling;
mod texts;
mod timing;
mod reference {
    include!(concat!(env!("REFERENCE"), "/src/circuit.rs"));
}

fn main() {
    let words: Vec<String> = std::env::args().skip(1).collect();
    let wanted = |part: &str| words.is_empty() || words.iter().any(|w| w == part);
    if wanted("read") {
        reading::all();
    }
    if wanted("schedule") {
        scheduling::all();
    }
    if wanted("runs") {
        running::all();
    }
}
