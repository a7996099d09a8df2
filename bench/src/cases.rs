//! The measured lines: for each case the median over the layouts.
use std::collections::BTreeMap;

/// A case without its size: part, subject and kind, with the place where it first stood.
#[derive(Clone, PartialEq, Eq, PartialOrd, Ord)]
pub struct Case {
    place: usize,
    pub part: String,
    pub subject: String,
    pub kind: String,
}

#[derive(Clone, Copy, Default)]
pub struct Measured {
    pub ours: Option<f64>,
    pub theirs: Option<f64>,
    pub ratio: Option<f64>,
    /// The greatest ratio over the least, of the layouts.
    pub spread: Option<f64>,
}

/// The measured sizes of each case, in the order in which the cases came.
pub type Cases = BTreeMap<Case, BTreeMap<usize, Measured>>;

/// A number as it is shown: two places after the point, three where it is small.
pub fn shown(n: f64) -> String {
    if n < 0.095 { format!("{n:.3}") } else { format!("{n:.2}") }
}

pub fn median(mut numbers: Vec<f64>) -> Option<f64> {
    numbers.sort_by(f64::total_cmp);
    match numbers.len() {
        0 => None,
        n if n % 2 == 1 => Some(numbers[n / 2]),
        n => Some((numbers[n / 2 - 1] + numbers[n / 2]) / 2.0),
    }
}

/// The lines `WORD PART SUBJECT SIZE KIND OURS THEIRS` of several files. The ratio is taken in each file, then the median of the ratios.
pub fn cases(word: &str, files: &[String]) -> Cases {
    let mut places: BTreeMap<[String; 3], usize> = BTreeMap::new();
    let mut seen: BTreeMap<(Case, usize), Vec<(Option<f64>, Option<f64>)>> = BTreeMap::new();
    for line in files.iter().flat_map(|file| file.lines()) {
        let words: Vec<&str> = line.split(' ').collect();
        let [first, part, subject, size, kind, ours, theirs] = words[..] else { continue };
        if first != word {
            continue;
        }
        let next = places.len();
        let place = *places.entry([part, subject, kind].map(str::to_owned)).or_insert(next);
        let case = Case { place, part: part.to_owned(), subject: subject.to_owned(), kind: kind.to_owned() };
        seen.entry((case, size.parse().expect("a size"))).or_default().push((ours.parse().ok(), theirs.parse().ok()));
    }
    let mut cases = Cases::new();
    for ((case, size), both) in seen {
        let ratios: Vec<f64> = both.iter().filter_map(|(ours, theirs)| Some((*ours)? / (*theirs)?)).collect();
        let (least, most) = ratios.iter().fold((f64::INFINITY, 0.0f64), |(least, most), ratio| (least.min(*ratio), most.max(*ratio)));
        let measured = Measured {
            ours: median(both.iter().filter_map(|(ours, _)| *ours).collect()),
            theirs: median(both.iter().filter_map(|(_, theirs)| *theirs).collect()),
            spread: (ratios.len() > 1).then_some(most / least),
            ratio: median(ratios),
        };
        cases.entry(case).or_default().insert(size, measured);
    }
    cases
}

/// Of each size whose half was measured too: the growth of both sides.
pub fn growth(sizes: &BTreeMap<usize, Measured>) -> Vec<(usize, Option<f64>, Option<f64>)> {
    let over = |a: Option<f64>, b: Option<f64>| Some(a? / b?);
    let pairs = sizes.iter().filter_map(|(size, now)| Some((*size, now, sizes.get(&(size / 2)).filter(|_| size % 2 == 0)?)));
    pairs.map(|(size, now, half)| (size, over(now.ours, half.ours), over(now.theirs, half.theirs))).collect()
}
