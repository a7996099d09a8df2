//! What a circuit gives: for one assignment, along an order with unknown inputs, and for numbered assignments.
use crate::archive;
use crate::circuit::BoolCircuit;
use crate::records::{Records, records};
use crate::refusal::Refusal;
use std::collections::HashMap;

const UNKNOWN: u8 = 2;

/// A circuit's records with the areas of its runs, for many assignments of one circuit.
///
/// ```
/// use relay::BoolCircuit;
/// let circuit = BoolCircuit::parse_bench("INPUT(a)\nINPUT(b)\nOUTPUT(y)\ny = AND(a, b)\n")?;
/// let mut evaluator = circuit.evaluator();
/// let mut on = 0;
/// for number in 0..4 {
///     let assignment = evaluator.assignment(number)?;
///     on += usize::from(evaluator.evaluate(&assignment)?[0]);
/// }
/// assert_eq!(on, 1);
/// # Ok::<(), relay::Refusal>(())
/// ```
#[derive(Clone, Debug)]
pub struct Evaluator {
    nodes: Vec<usize>,
    outputs: Vec<usize>,
    /// The numbers of the input nodes.
    inputs: Vec<usize>,
    assignment: Vec<u8>,
    values: Vec<u8>,
    answers: Vec<u8>,
    known: Vec<bool>,
    maybe: Vec<Option<bool>>,
}

fn bit(byte: u8) -> Option<bool> {
    (byte < UNKNOWN).then_some(byte == 1)
}

impl Evaluator {
    /// The outputs for one assignment, an entry for each input in storage order.
    pub fn evaluate(&mut self, assignment: &[bool]) -> Result<&[bool], Refusal> {
        self.assignment.clear();
        self.assignment.extend(assignment.iter().map(|value| u8::from(*value)));
        archive::evaluate(&self.nodes, &self.outputs, &self.assignment, &mut self.values, &mut self.answers).map_err(Refusal::of)?;
        self.known.clear();
        self.known.extend(self.answers.iter().map(|answer| *answer == 1));
        Ok(&self.known)
    }

    /// The outputs along an order of all cells, `None` being unknown. A cell is known if every filling of its unknown wires gives it the
    /// same value.
    pub fn run(&mut self, order: &[usize], assignment: &[Option<bool>]) -> Result<&[Option<bool>], Refusal> {
        self.assignment.clear();
        self.assignment.extend(assignment.iter().map(|value| value.map_or(UNKNOWN, u8::from)));
        archive::run(&self.nodes, &self.outputs, order, &self.assignment, &mut self.values, &mut self.answers).map_err(Refusal::of)?;
        self.maybe.clear();
        self.maybe.extend(self.answers.iter().map(|answer| bit(*answer)));
        Ok(&self.maybe)
    }

    /// Assignment `number` of all those of at most 20 inputs: the first input is the most significant bit.
    pub fn assignment(&mut self, number: usize) -> Result<Vec<bool>, Refusal> {
        self.assignment.clear();
        self.assignment.resize(self.inputs.len(), 0);
        archive::exhaustive_inputs(&self.nodes, &self.outputs, number, &mut self.assignment).map_err(Refusal::of)?;
        Ok(self.assignment.iter().map(|value| *value == 1).collect())
    }
}

impl BoolCircuit {
    /// The circuit made ready for many runs.
    pub fn evaluator(&self) -> Evaluator {
        let Records { nodes, outputs, inputs } = records(self);
        Evaluator {
            nodes,
            outputs,
            inputs,
            assignment: Vec::new(),
            values: vec![0; self.nodes.len()],
            answers: vec![0; self.outputs.len()],
            known: Vec::new(),
            maybe: Vec::new(),
        }
    }

    /// The values of the inputs in storage order. It ends at the first name that is missing: an assignment of a wrong length is 19.
    fn assigned<T: Copy>(&self, evaluator: &Evaluator, inputs: &HashMap<String, T>) -> Vec<T> {
        evaluator.inputs.iter().map_while(|id| inputs.get(self.nodes[*id].name()).copied()).collect()
    }

    fn named<T: Copy>(&self, values: &[T]) -> Vec<(String, T)> {
        self.outputs.iter().zip(values).map(|((name, _), value)| (name.clone(), *value)).collect()
    }

    /// The outputs for one assignment by name. A missing input is 19. Each call makes the circuit's records: for many assignments of one
    /// circuit [`BoolCircuit::evaluator`] makes them once.
    pub fn evaluate(&self, inputs: &HashMap<String, bool>) -> Result<Vec<(String, bool)>, Refusal> {
        let mut evaluator = self.evaluator();
        let assignment = self.assigned(&evaluator, inputs);
        Ok(self.named(evaluator.evaluate(&assignment)?))
    }

    /// The outputs along an order of all cells, with `None` for what is unknown. A missing input is 19, an unfit order 20.
    pub fn run(&self, order: &[usize], inputs: &HashMap<String, Option<bool>>) -> Result<Vec<(String, Option<bool>)>, Refusal> {
        let mut evaluator = self.evaluator();
        let assignment = self.assigned(&evaluator, inputs);
        Ok(self.named(evaluator.run(order, &assignment)?))
    }

    /// All assignments by name, for circuits of at most 20 inputs. One at a time takes less memory: [`Evaluator::assignment`].
    pub fn exhaustive_inputs(&self) -> Result<Vec<HashMap<String, bool>>, Refusal> {
        let names: Vec<&str> = self.input_names().collect();
        let mut evaluator = self.evaluator();
        // refused before a list is made: 15, or 21 for more than 20 inputs
        evaluator.assignment(0)?;
        let named = |values: Vec<bool>| names.iter().map(|name| (*name).to_owned()).zip(values).collect();
        (0..1usize << names.len()).map(|number| evaluator.assignment(number).map(named)).collect()
    }
}
