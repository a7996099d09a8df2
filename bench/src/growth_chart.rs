//! The time for each byte or cell as sizes double, as SVG: a small panel for each case, level lines meaning linear cost.
use crate::cases::{Case, Cases, Measured, growth};
use std::collections::BTreeMap;
use std::fmt::Write;

const PANEL: (f64, f64) = (250.0, 170.0);
const PLOT: (f64, f64) = (180.0, 90.0);
const COLUMNS: usize = 4;

type Sizes = BTreeMap<usize, Measured>;

/// The sizes of the doubling series alone.
fn series(sizes: &Sizes) -> Vec<(usize, Measured)> {
    let grown = growth(sizes);
    let in_series = |size: &usize| grown.iter().any(|(large, _, _)| large == size || large / 2 == *size);
    sizes.iter().filter(|(size, _)| in_series(size)).map(|(size, measured)| (*size, *measured)).collect()
}

fn line(svg: &mut String, points: &[(f64, f64)], color: &str) {
    let points: Vec<String> = points.iter().map(|(x, y)| format!("{x:.1},{y:.1}")).collect();
    let _ = writeln!(svg, "<polyline points=\"{}\" fill=\"none\" stroke=\"{color}\" stroke-width=\"2\"/>", points.join(" "));
}

fn panel(svg: &mut String, case: &Case, series: &[(usize, Measured)], left: f64, top: f64) {
    let each = |side: fn(&Measured) -> Option<f64>| -> Vec<(f64, f64)> {
        series.iter().filter_map(|(size, m)| Some((*size as f64, side(m)? / *size as f64))).collect()
    };
    let (ours, theirs) = (each(|m| m.ours), each(|m| m.theirs));
    let most = ours.iter().chain(&theirs).fold(0.0, |most: f64, (_, t)| most.max(*t));
    let (first, last) = (series[0].0 as f64, series[series.len() - 1].0 as f64);
    let place =
        |(size, t): &(f64, f64)| (left + 40.0 + PLOT.0 * (size / first).ln() / (last / first).ln(), top + 30.0 + PLOT.1 * (1.0 - t / most));
    let bottom = top + 30.0 + PLOT.1;
    let _ = writeln!(svg, "<text x=\"{:.1}\" y=\"{:.1}\">{} {} {}</text>", left + 8.0, top + 16.0, case.part, case.subject, case.kind);
    for (y, value) in [(bottom, 0.0), (top + 30.0, most)] {
        let _ = writeln!(
            svg,
            "<line x1=\"{:.1}\" y1=\"{y:.1}\" x2=\"{:.1}\" y2=\"{y:.1}\" stroke=\"#ddd\"/>",
            left + 40.0,
            left + 40.0 + PLOT.0
        );
        let _ = writeln!(svg, "<text x=\"{:.1}\" y=\"{:.1}\" text-anchor=\"end\" fill=\"#555\">{value:.0}</text>", left + 36.0, y + 4.0);
    }
    for size in [first, last] {
        let _ = writeln!(
            svg,
            "<text x=\"{:.1}\" y=\"{:.1}\" text-anchor=\"middle\" fill=\"#555\">{size}</text>",
            place(&(size, 0.0)).0,
            bottom + 14.0
        );
    }
    line(svg, &theirs.iter().map(place).collect::<Vec<_>>(), "#999");
    line(svg, &ours.iter().map(place).collect::<Vec<_>>(), "#2a7f62");
}

pub fn svg(cases: &Cases) -> String {
    let grown: Vec<(&Case, Vec<(usize, Measured)>)> =
        cases.iter().map(|(case, sizes)| (case, series(sizes))).filter(|(_, series)| series.len() > 1).collect();
    let (width, height) = (PANEL.0 * COLUMNS as f64, 50.0 + PANEL.1 * grown.len().div_ceil(COLUMNS) as f64);
    let mut svg = format!(
        "<svg xmlns=\"http://www.w3.org/2000/svg\" viewBox=\"0 0 {width} {height}\" font-family=\"sans-serif\" font-size=\"11\">\n"
    );
    let _ = writeln!(svg, "<rect width=\"{width}\" height=\"{height}\" fill=\"#fff\"/>");
    let _ = writeln!(svg, "<text x=\"8\" y=\"22\" font-size=\"15\">Nanoseconds for each byte or cell as the size doubles</text>");
    let _ = writeln!(
        svg,
        "<text x=\"8\" y=\"40\"><tspan fill=\"#2a7f62\">this library</tspan>, <tspan fill=\"#777\">the reference</tspan>; a level line is linear cost</text>"
    );
    for (place, (case, series)) in grown.iter().enumerate() {
        panel(&mut svg, case, series, PANEL.0 * (place % COLUMNS) as f64, 46.0 + PANEL.1 * (place / COLUMNS) as f64);
    }
    svg.push_str("</svg>\n");
    svg
}
