//! The static library's calls, each behind a safe function over slices, for callers that lend areas of their own. Sizes of areas and the
//! words of records are in `include/relay.h`. The only file with `unsafe`.
//!
//! What `include/relay.h` asks of a caller, and why each call here is sound: every pointer comes from a slice together with that
//! slice's own length, so it is aligned, not null (also where the slice is empty) and has memory for that many elements; a written area
//! is a `&mut` slice, and a count is a local, so neither overlaps any other argument. Every bit pattern of `u8`, `u32` and `usize` is a
//! value, so whatever the library stores is sound. The library keeps no pointer, has no state and calls nothing back.

/// A call's answer: its counts, or the refusal's number.
pub type Answer<T> = Result<T, usize>;

#[link(name = "relay", kind = "static")]
unsafe extern "C" {
    fn relay_parse_blif(
        text: *const u8, text_len: usize, joined: *mut u8, joined_len: usize, nodes: *mut usize, nodes_len: usize, names: *mut usize,
        names_len: usize, outputs: *mut usize, outputs_len: usize, node_count: *mut usize, output_count: *mut usize,
    ) -> usize;
    fn relay_parse_bench(
        text: *const u8, text_len: usize, joined: *mut u8, joined_len: usize, nodes: *mut usize, nodes_len: usize, names: *mut usize,
        names_len: usize, outputs: *mut usize, outputs_len: usize, node_count: *mut usize, output_count: *mut usize,
    ) -> usize;
    fn relay_parse_bristol(
        text: *const u8, text_len: usize, nodes: *mut usize, nodes_len: usize, outputs: *mut usize, outputs_len: usize, wires: *mut usize,
        wires_len: usize, node_count: *mut usize, output_count: *mut usize,
    ) -> usize;
    fn relay_validate_topological(nodes: *const usize, nodes_len: usize, outputs: *const usize, outputs_len: usize) -> usize;
    fn relay_scheduled_gates_by_key(
        nodes: *const usize, nodes_len: usize, outputs: *const usize, outputs_len: usize, window: usize, keys: *const u32, keys_len: usize,
        ready: *mut usize, ready_len: usize, successors: *mut usize, successors_len: usize, order: *mut usize, order_len: usize,
        cell_count: *mut usize,
    ) -> usize;
    fn relay_evaluate(
        nodes: *const usize, nodes_len: usize, outputs: *const usize, outputs_len: usize, assignment: *const u8, assignment_len: usize,
        values: *mut u8, values_len: usize, answers: *mut u8, answers_len: usize, output_count: *mut usize,
    ) -> usize;
    fn relay_run(
        nodes: *const usize, nodes_len: usize, outputs: *const usize, outputs_len: usize, order: *const usize, order_len: usize,
        assignment: *const u8, assignment_len: usize, values: *mut u8, values_len: usize, answers: *mut u8, answers_len: usize,
        cell_count: *mut usize,
    ) -> usize;
    fn relay_exhaustive_inputs(
        nodes: *const usize, nodes_len: usize, outputs: *const usize, outputs_len: usize, number: usize, assignment: *mut u8,
        assignment_len: usize, input_count: *mut usize,
    ) -> usize;
}

fn answer<T>(refusal: usize, counts: T) -> Answer<T> {
    if refusal == 0 { Ok(counts) } else { Err(refusal) }
}

/// A BLIF text into joined lines, nodes and outputs: the numbers of nodes and outputs.
pub fn parse_blif(
    text: &[u8], joined: &mut [u8], nodes: &mut [usize], names: &mut [usize], outputs: &mut [usize],
) -> Answer<(usize, usize)> {
    let (mut node_count, mut output_count) = (0, 0);
    // SAFETY: five slices with their own lengths, four of them borrowed for writing and therefore apart; two locals.
    let refusal = unsafe {
        relay_parse_blif(
            text.as_ptr(),
            text.len(),
            joined.as_mut_ptr(),
            joined.len(),
            nodes.as_mut_ptr(),
            nodes.len(),
            names.as_mut_ptr(),
            names.len(),
            outputs.as_mut_ptr(),
            outputs.len(),
            &mut node_count,
            &mut output_count,
        )
    };
    answer(refusal, (node_count, output_count))
}

/// A BENCH text into joined lines, nodes and outputs: the numbers of nodes and outputs.
pub fn parse_bench(
    text: &[u8], joined: &mut [u8], nodes: &mut [usize], names: &mut [usize], outputs: &mut [usize],
) -> Answer<(usize, usize)> {
    let (mut node_count, mut output_count) = (0, 0);
    // SAFETY: five slices with their own lengths, four of them borrowed for writing and therefore apart; two locals.
    let refusal = unsafe {
        relay_parse_bench(
            text.as_ptr(),
            text.len(),
            joined.as_mut_ptr(),
            joined.len(),
            nodes.as_mut_ptr(),
            nodes.len(),
            names.as_mut_ptr(),
            names.len(),
            outputs.as_mut_ptr(),
            outputs.len(),
            &mut node_count,
            &mut output_count,
        )
    };
    answer(refusal, (node_count, output_count))
}

/// A Bristol text into nodes and outputs: their numbers.
pub fn parse_bristol(text: &[u8], nodes: &mut [usize], outputs: &mut [usize], wires: &mut [usize]) -> Answer<(usize, usize)> {
    let (mut node_count, mut output_count) = (0, 0);
    // SAFETY: four slices with their own lengths, three of them borrowed for writing and therefore apart; two locals.
    let refusal = unsafe {
        relay_parse_bristol(
            text.as_ptr(),
            text.len(),
            nodes.as_mut_ptr(),
            nodes.len(),
            outputs.as_mut_ptr(),
            outputs.len(),
            wires.as_mut_ptr(),
            wires.len(),
            &mut node_count,
            &mut output_count,
        )
    };
    answer(refusal, (node_count, output_count))
}

/// The circuit check.
pub fn validate_topological(nodes: &[usize], outputs: &[usize]) -> Answer<()> {
    // SAFETY: two slices with their own lengths, only read.
    let refusal = unsafe { relay_validate_topological(nodes.as_ptr(), nodes.len(), outputs.as_ptr(), outputs.len()) };
    answer(refusal, ())
}

/// The cells in an order, in the first places of `order`: the number of cells.
pub fn scheduled_gates_by_key(
    nodes: &[usize], outputs: &[usize], window: usize, keys: &[u32], ready: &mut [usize], successors: &mut [usize], order: &mut [usize],
) -> Answer<usize> {
    let mut cell_count = 0;
    // SAFETY: six slices with their own lengths, the three that are written borrowed for that and therefore apart; a local.
    let refusal = unsafe {
        relay_scheduled_gates_by_key(
            nodes.as_ptr(),
            nodes.len(),
            outputs.as_ptr(),
            outputs.len(),
            window,
            keys.as_ptr(),
            keys.len(),
            ready.as_mut_ptr(),
            ready.len(),
            successors.as_mut_ptr(),
            successors.len(),
            order.as_mut_ptr(),
            order.len(),
            &mut cell_count,
        )
    };
    answer(refusal, cell_count)
}

/// The outputs for one assignment: their number.
pub fn evaluate(nodes: &[usize], outputs: &[usize], assignment: &[u8], values: &mut [u8], answers: &mut [u8]) -> Answer<usize> {
    let mut output_count = 0;
    // SAFETY: five slices with their own lengths, the two that are written borrowed for that and therefore apart; a local.
    let refusal = unsafe {
        relay_evaluate(
            nodes.as_ptr(),
            nodes.len(),
            outputs.as_ptr(),
            outputs.len(),
            assignment.as_ptr(),
            assignment.len(),
            values.as_mut_ptr(),
            values.len(),
            answers.as_mut_ptr(),
            answers.len(),
            &mut output_count,
        )
    };
    answer(refusal, output_count)
}

/// The outputs along an order, unknowns allowed: the number of cells worked out.
pub fn run(nodes: &[usize], outputs: &[usize], order: &[usize], assignment: &[u8], values: &mut [u8], answers: &mut [u8]) -> Answer<usize> {
    let mut cell_count = 0;
    // SAFETY: six slices with their own lengths, the two that are written borrowed for that and therefore apart; a local.
    let refusal = unsafe {
        relay_run(
            nodes.as_ptr(),
            nodes.len(),
            outputs.as_ptr(),
            outputs.len(),
            order.as_ptr(),
            order.len(),
            assignment.as_ptr(),
            assignment.len(),
            values.as_mut_ptr(),
            values.len(),
            answers.as_mut_ptr(),
            answers.len(),
            &mut cell_count,
        )
    };
    answer(refusal, cell_count)
}

/// One numbered assignment of all: the number of inputs.
pub fn exhaustive_inputs(nodes: &[usize], outputs: &[usize], number: usize, assignment: &mut [u8]) -> Answer<usize> {
    let mut input_count = 0;
    // SAFETY: three slices with their own lengths, the one that is written borrowed for that; a local.
    let refusal = unsafe {
        relay_exhaustive_inputs(
            nodes.as_ptr(),
            nodes.len(),
            outputs.as_ptr(),
            outputs.len(),
            number,
            assignment.as_mut_ptr(),
            assignment.len(),
            &mut input_count,
        )
    };
    answer(refusal, input_count)
}
