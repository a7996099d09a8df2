//! Circuits of some 60 to 3,000 cells, and a few of 20,000 to 140,000, on both sides. What is only met there: the schedule's second
//! part, which keeps the best of many ready cells in a tree, and the larger marks by which a run tests its list. So of each circuit the orders at
//! windows around each bound are compared, with keys of which many are equal; an order is run, without and with unknown inputs;
//! altered orders (20), a broken record (15) and a forward read (16), each at a random place, must give their number and zeros.
use crate::circuits::{break_record, broken, faulty, words};
use crate::generate::Random;
use crate::library::{self, Area, Records};
use crate::reference::{BoolCircuit, BoolNode};
use crate::runs;
use crate::shapes::{self, NUMBERINGS, Numbering, SHAPES, Shape};

/// Around the most cells of a step that counts as short (32), and around a word of ready cells (64).
const WINDOWS: [usize; 12] = [1, 2, 3, 7, 32, 33, 63, 64, 65, 100, 1000, usize::MAX];

/// What was compared of one circuit or, added up, of all.
#[derive(Default)]
pub struct Seen {
    pub circuits: usize,
    /// cells read in a circle (17)
    pub circles: usize,
    /// nodes read forward (16), a circle or not
    pub forward: usize,
    pub orders: usize,
    /// orders of which the tree took some cells, by the window
    pub ranked: Vec<usize>,
    /// circuits that were run, by how many marks their lists were tested
    pub runs: usize,
    pub marks: Marks,
    /// circuits besides that were run alone
    pub far: usize,
    /// orders that were refused by the run (20)
    pub unfit: usize,
}

/// The runs by how many marks their lists were tested (crates/runs/src/fitness.rt).
#[derive(Default)]
pub struct Marks {
    /// up to 4,096 nodes
    pub few: usize,
    /// up to 131,072
    pub many: usize,
    /// more
    pub most: usize,
}

impl Marks {
    fn of(circuit: &BoolCircuit) -> Self {
        let count = circuit.nodes.len();
        Self { few: usize::from(count <= 4_096), many: usize::from((4_097..=131_072).contains(&count)), most: usize::from(count > 131_072) }
    }
}

impl Seen {
    pub fn add(&mut self, other: Seen) {
        self.circuits += other.circuits;
        self.circles += other.circles;
        self.forward += other.forward;
        self.orders += other.orders;
        self.ranked.extend(other.ranked);
        self.runs += other.runs;
        self.marks.few += other.marks.few;
        self.marks.many += other.marks.many;
        self.marks.most += other.marks.most;
        self.far += other.far;
        self.unfit += other.unfit;
    }

    /// The sizes of marks by which no list was tested.
    pub fn untested(&self) -> Vec<&'static str> {
        let marks = [("few", self.marks.few), ("many", self.marks.many), ("most", self.marks.most)];
        marks.into_iter().filter(|(_, runs)| *runs == 0).map(|(word, _)| word).collect()
    }

    /// The windows that lead to the tree and at which it took no cell.
    pub fn unmet(&self) -> Vec<usize> {
        WINDOWS.into_iter().filter(|window| *window > 32 && !self.ranked.contains(window)).collect()
    }
}

/// How many cells of an order the tree takes. By crates/ordering/src/taking.rt a step that may take more than 32 cells looks at each
/// of them, and the tree takes over where these steps would have looked at more cells than there are nodes.
fn by_tree(circuit: &BoolCircuit, list: &[usize], window: usize) -> usize {
    let count = circuit.nodes.len();
    let mut readers = vec![Vec::new(); count];
    let mut waits = vec![0; count];
    for id in list {
        for read in shapes::cells_read(circuit, *id) {
            readers[read].push(*id);
            waits[*id] += 1;
        }
    }
    let mut ready = list.iter().filter(|id| waits[**id] == 0).count();
    let mut looks = 0;
    for (taken, id) in list.iter().enumerate() {
        let may = window.min(ready);
        looks += if may > 32 { may } else { 0 };
        if looks > count && count >= 64 {
            return list.len() - taken;
        }
        ready -= 1;
        for reader in &readers[*id] {
            waits[*reader] -= 1;
            ready += usize::from(waits[*reader] == 0);
        }
    }
    0
}

/// "each cell once after those it reads"
fn fits(circuit: &BoolCircuit, list: &[usize]) -> bool {
    let mut taken = vec![false; circuit.nodes.len()];
    for id in list {
        let cell = matches!(circuit.nodes.get(*id), Some(BoolNode::Lut { .. }));
        if !cell || taken[*id] || shapes::cells_read(circuit, *id).any(|read| !taken[read]) {
            return false;
        }
        taken[*id] = true;
    }
    list.len() == circuit.gate_ids().count()
}

/// The order with a fault at a random place. Some that change places stay fit.
fn altered(random: &mut Random, circuit: &BoolCircuit, list: &[usize]) -> Vec<Vec<usize>> {
    let count = circuit.nodes.len();
    let copy = |change: &mut dyn FnMut(&mut Vec<usize>)| {
        let mut altered = list.to_vec();
        change(&mut altered);
        altered
    };
    let mut place = || random.below(list.len());
    let (a, b, c, d) = (place(), place(), place(), place());
    let mut all = vec![
        copy(&mut |order| order[a] = order[b]),
        copy(&mut |order| order.swap(c, d)),
        copy(&mut |order| order.swap(a, (a + 1) % list.len())),
        copy(&mut |order| order.rotate_left(b)),
        copy(&mut |order| order.truncate(c)),
        copy(&mut |order| {
            order.remove(d);
        }),
        copy(&mut |order| order.insert(a, order[b])),
        copy(&mut |order| order.push(count)),
        copy(&mut |order| order[c] = count),
        copy(&mut |order| order[d] = [count + 1, 2 * count, 1 << 32, 1 << 63, usize::MAX][a % 5]),
        circuit.topological_gates(),
    ];
    if !circuit.inputs.is_empty() {
        let input = circuit.inputs[random.below(circuit.inputs.len())];
        all.push(copy(&mut |order| order[a] = input));
        all.push(copy(&mut |order| order.insert(b, input)));
    }
    // a cell and one that it reads, from a random place on
    let reads = |place: usize| shapes::cells_read(circuit, list[place]).next();
    if let Some((late, read)) = (c..list.len()).find_map(|place| reads(place).map(|read| (place, read))) {
        let early = list.iter().position(|id| *id == read).unwrap_or(late);
        all.push(copy(&mut |order| order.swap(early, late)));
    }
    all
}

/// Runs along altered orders: 20 and zeros for one that does not fit, and the outputs of the storage order for one that does. How many did not.
fn unfit(random: &mut Random, circuit: &BoolCircuit, records: Records, list: &[usize], assignment: &[u8]) -> Result<usize, String> {
    let (count, outs) = (circuit.nodes.len(), circuit.outputs.len());
    let outputs = runs::storage_order(circuit, assignment);
    let mut refused = 0;
    for (k, order) in altered(random, circuit, list).iter().enumerate() {
        let fit = fits(circuit, order);
        let (mut values, mut answers) = (Area::new(count, 7u8), Area::new(outs, 7u8));
        let answer = library::run(records, order, assignment, &mut values, &mut answers);
        let (expected, given) = if fit { ((0, list.len()), &outputs[..]) } else { ((20, 0), &[][..]) };
        if answer != expected || !values.has(&[]) || !answers.has(given) {
            return Err(format!("an altered order, {k}: {expected:?} is expected and the answer is {answer:?}"));
        }
        refused += usize::from(!fit);
    }
    Ok(refused)
}

/// One read of a cell, at a random place, of itself or a later node: 16 and zeros of the calls that make the check.
fn forward_read(random: &mut Random, circuit: &BoolCircuit, records: Records, list: &[usize], assignment: &[u8]) -> Result<(), String> {
    let id = list[random.below(list.len())];
    let later = id + random.below(circuit.nodes.len() - id);
    let mut nodes = records.nodes.to_vec();
    nodes[9 * id + 7 + random.below(circuit.nodes[id].inputs().len())] = later + 2;
    match faulty(Records { nodes: &nodes, ..records }, list, assignment)? {
        16 => Ok(()),
        fault => Err(format!("node {id} reads {later}, and the fault is {fault}")),
    }
}

/// So many cells, as often few as many.
pub fn some_cells(random: &mut Random) -> usize {
    let least = 60 << random.below(6);
    (least + random.below(least)).min(3000)
}

/// All windows, or for very many cells, where the reference takes long, one of the short ones and three of the others.
fn windows(random: &mut Random, cells: usize) -> Vec<usize> {
    if cells <= 3000 {
        return WINDOWS.to_vec();
    }
    let (short, long) = WINDOWS.split_at(5);
    let from = random.below(long.len());
    [short[random.below(short.len())]].into_iter().chain((0..3).map(|k| long[(from + 2 * k) % long.len()])).collect()
}

/// The circuit with the number `number` in this run, of so many cells.
pub fn compare(random: &mut Random, number: usize, cells: usize) -> Result<Seen, String> {
    let (shape, numbering) = (SHAPES[number % SHAPES.len()], NUMBERINGS[number % NUMBERINGS.len()]);
    let circuit = shapes::circuit(random, shape, numbering, cells);
    compare_circuit(random, &circuit, cells).map_err(|what| {
        let what: String = what.chars().take(2000).collect();
        format!("large circuit {number}, {shape:?}, {numbering:?}, {cells} cells of {} nodes: {what}", circuit.nodes.len())
    })
}

/// Runs of a circuit of so many cells: along the storage order and along the library's order for some window, without and with unknown
/// inputs, and along altered orders. The reference does not order it, which takes it long.
pub fn compare_far(random: &mut Random, cells: usize) -> Result<Seen, String> {
    let circuit = shapes::circuit(random, Shape::Layered, Numbering::Stored, cells);
    let (nodes, outputs) = words(&circuit);
    let records = Records { nodes: &nodes, outputs: &outputs };
    let [mut ready, mut successors, mut order] = runs::schedule_areas(circuit.nodes.len());
    let keys = shapes::keys(random, circuit.nodes.len());
    let (number, cells) = library::schedule(records, 64, &keys, [&mut ready, &mut successors, &mut order]);
    let stored = circuit.topological_gates();
    if (number, cells) != (0, stored.len()) {
        return Err(format!("the order of {} cells is answered by {number} and {cells}", stored.len()));
    }
    let list = order.first(cells);
    for along in [&stored[..], list] {
        runs::assignments(&circuit, records, along)?;
        runs::unknowns(&circuit, records, along)?;
    }
    let assignment: Vec<u8> = circuit.inputs.iter().map(|_| random.below(2) as u8).collect();
    let unfit = unfit(random, &circuit, records, list, &assignment)?;
    Ok(Seen { marks: Marks::of(&circuit), far: 1, unfit, ..Seen::default() })
}

fn compare_circuit(random: &mut Random, circuit: &BoolCircuit, cells: usize) -> Result<Seen, String> {
    let (mut nodes, mut outputs) = words(circuit);
    let records = Records { nodes: &nodes, outputs: &outputs };
    let count = circuit.nodes.len();
    let ordered = circuit.validate_topological().is_ok();
    let checked = library::validate(records);
    if checked != if ordered { 0 } else { 16 } {
        return Err(format!("the check differs, {checked}"));
    }
    let mut seen = Seen { circuits: 1, forward: usize::from(!ordered), ..Seen::default() };
    let mut lists = Vec::new();
    for window in windows(random, cells) {
        let keys = shapes::keys(random, count);
        if let Some(list) = runs::order(circuit, records, window, &keys)? {
            if by_tree(circuit, &list, window) > 0 {
                seen.ranked.push(window);
            }
            lists.push(list);
        }
    }
    seen.orders = lists.len();
    seen.circles = usize::from(lists.is_empty());
    let list = if lists.is_empty() { Vec::new() } else { lists.swap_remove(random.below(lists.len())) };
    let assignment: Vec<u8> = circuit.inputs.iter().map(|_| random.below(2) as u8).collect();
    if ordered {
        runs::assignments(circuit, records, &list)?;
        runs::unknowns(circuit, records, &lists[random.below(lists.len())])?;
        runs::refusals(circuit, records, &list)?;
        seen.runs = 1;
        seen.marks = Marks::of(circuit);
        seen.unfit = unfit(random, circuit, records, &list, &assignment)?;
        forward_read(random, circuit, records, &list, &assignment)?;
    } else {
        faulty(records, &list, &assignment)?;
    }
    while !break_record(random, &mut nodes, &mut outputs) {}
    broken(Records { nodes: &nodes, outputs: &outputs }, &list, &assignment, &runs::key_list(count, 3))?;
    Ok(seen)
}
