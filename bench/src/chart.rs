//! A chart of the ratios as SVG: a bar for each case at its largest size that both sides finish, on a logarithmic axis.
use crate::cases::{Cases, shown};
use std::fmt::Write;

const ROW: f64 = 17.0;
const LEFT: f64 = 290.0;
const WIDTH: f64 = 520.0;
const TOP: f64 = 56.0;
const LEAST: f64 = 0.01;
const MOST: f64 = 10.0;

fn x(ratio: f64) -> f64 {
    LEFT + WIDTH * (ratio.clamp(LEAST, MOST) / LEAST).ln() / (MOST / LEAST).ln()
}

pub fn svg(cases: &Cases) -> String {
    let bars: Vec<(String, f64)> = cases
        .iter()
        .filter_map(|(case, sizes)| {
            let (size, ratio) = sizes.iter().rev().find_map(|(size, measured)| Some((size, measured.ratio?)))?;
            Some((format!("{} {} {} {size}", case.part, case.subject, case.kind), ratio))
        })
        .collect();
    let bottom = TOP + ROW * bars.len() as f64;
    let mut svg = String::new();
    let (width, height) = (LEFT + WIDTH + 60.0, bottom + 34.0);
    let _ = write!(
        svg,
        "<svg xmlns=\"http://www.w3.org/2000/svg\" viewBox=\"0 0 {width} {height}\" font-family=\"sans-serif\" font-size=\"11\">"
    );
    let _ = writeln!(svg, "<rect width=\"{width}\" height=\"{height}\" fill=\"#fff\"/>");
    let _ = writeln!(svg, "<text x=\"12\" y=\"22\" font-size=\"15\">Time of this library over the reference's</text>");
    let _ = writeln!(
        svg,
        "<text x=\"12\" y=\"40\" fill=\"#555\">left of 1 this library is faster; each case at the largest size that both finish</text>"
    );
    for tick in [0.01, 0.03, 0.1, 0.3, 1.0, 3.0, 10.0] {
        let (at, color, wide) = (x(tick), if tick == 1.0 { "#000" } else { "#ddd" }, if tick == 1.0 { 1.5 } else { 1.0 });
        let _ =
            writeln!(svg, "<line x1=\"{at:.1}\" y1=\"{TOP}\" x2=\"{at:.1}\" y2=\"{bottom}\" stroke=\"{color}\" stroke-width=\"{wide}\"/>");
        let _ = writeln!(svg, "<text x=\"{at:.1}\" y=\"{}\" text-anchor=\"middle\">{tick}</text>", bottom + 16.0);
    }
    for (place, (name, ratio)) in bars.iter().enumerate() {
        let y = TOP + ROW * place as f64;
        let (from, to) = (x(ratio.min(1.0)), x(ratio.max(1.0)));
        let color = if *ratio > 1.0 { "#c8553d" } else { "#2a7f62" };
        let _ = writeln!(
            svg,
            "<rect x=\"{from:.1}\" y=\"{:.1}\" width=\"{:.1}\" height=\"{:.1}\" fill=\"{color}\"/>",
            y + 3.0,
            to - from,
            ROW - 6.0
        );
        let _ = writeln!(svg, "<text x=\"{:.1}\" y=\"{:.1}\" text-anchor=\"end\">{name}</text>", LEFT - 8.0, y + 12.5);
        let at = if *ratio > 1.0 { to + 4.0 } else { x(1.0) + 4.0 };
        let _ = writeln!(svg, "<text x=\"{at:.1}\" y=\"{:.1}\">{}</text>", y + 12.5, shown(*ratio));
    }
    svg.push_str("</svg>\n");
    svg
}
