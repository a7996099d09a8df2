//! Reads a BLIF text from standard input. Prints `refused N`, or the cells in an order and the outputs for each choice of one input
//! that is unknown while the others are off. The same as examples/c/blif_run.c.
use relay::{BoolCircuit, Refusal};
use std::collections::HashMap;
use std::process::ExitCode;

fn list(text: &str) -> Result<(), Refusal> {
    let circuit = BoolCircuit::parse_blif(text)?;
    let order = circuit.scheduled_gates_by_key(2, |cell| (0, 0, cell))?;
    let names: String = order.iter().map(|cell| format!(" {}", circuit.nodes[*cell].name())).collect();
    println!("order{names}");
    for unknown in 0..circuit.inputs.len() {
        let value = |place: usize| (place != unknown).then_some(false);
        let inputs: HashMap<String, Option<bool>> =
            circuit.input_names().enumerate().map(|(place, name)| (name.to_owned(), value(place))).collect();
        let sign = |value: Option<bool>| value.map_or('?', |on| if on { '1' } else { '0' });
        let outputs: String = circuit.run(&order, &inputs)?.iter().map(|(name, value)| format!(" {name}={}", sign(*value))).collect();
        println!("input {unknown} unknown:{outputs}");
    }
    Ok(())
}

fn main() -> ExitCode {
    let text = std::io::read_to_string(std::io::stdin()).expect("standard input");
    match list(&text) {
        Ok(()) => ExitCode::SUCCESS,
        Err(refusal) => {
            println!("refused {}", refusal.number());
            ExitCode::FAILURE
        }
    }
}
