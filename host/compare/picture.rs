//! The cost of each row over N, as a picture: a panel for a row, both axes logarithmic, ours two lines and the Rust's a dashed one.
use std::fmt::Write;

const COLUMNS: usize = 5;
const WIDTH: f64 = 190.0;
const HEIGHT: f64 = 130.0;
const LEFT: f64 = 34.0;
const TOP: f64 = 22.0;
const RIGHT: f64 = 12.0;
const BOTTOM: f64 = 18.0;

/// The costs that a panel shows: from 1 to 10,000 nanoseconds.
const DECADES: f64 = 4.0;

/// A row's name, and its costs at each N: of the call that tests the table, of the owner's, and of the Rust's.
pub struct Panel {
    pub name: &'static str,
    pub tested: Vec<f64>,
    pub owner: Vec<f64>,
    pub published: Vec<f64>,
}

fn x(i: usize, count: usize) -> f64 {
    LEFT + (WIDTH - LEFT - RIGHT) * i as f64 / (count - 1) as f64
}

fn y(cost: f64) -> f64 {
    let share = cost.clamp(1.0, 10f64.powf(DECADES)).log10() / DECADES;
    HEIGHT - BOTTOM - (HEIGHT - TOP - BOTTOM) * share
}

fn line(costs: &[f64], class: &str) -> String {
    let points: Vec<_> = costs.iter().enumerate().map(|(i, &cost)| format!("{:.1},{:.1}", x(i, costs.len()), y(cost))).collect();
    format!("<polyline class=\"{class}\" points=\"{}\"/>\n", points.join(" "))
}

/// The lines and numbers that the costs are read off.
fn grid(sizes: &[usize]) -> String {
    let mut out = String::new();
    for (cost, label) in [(1.0, "1 ns"), (100.0, "100 ns"), (10_000.0, "10 µs")] {
        let (at, right) = (y(cost), WIDTH - RIGHT);
        let _ = writeln!(
            out,
            "<path d=\"M{LEFT} {at:.1}H{right}\"/><text x=\"{:.1}\" y=\"{:.1}\" class=\"end\">{label}</text>",
            LEFT - 3.0,
            at + 3.0
        );
    }
    for (i, size) in sizes.iter().enumerate() {
        let _ = writeln!(out, "<text x=\"{:.1}\" y=\"{:.1}\" class=\"middle\">{size}</text>", x(i, sizes.len()), HEIGHT - 5.0);
    }
    out
}

pub fn svg(panels: &[Panel], sizes: &[usize]) -> String {
    let (width, height) = (WIDTH * COLUMNS as f64, HEIGHT * panels.len().div_ceil(COLUMNS) as f64);
    let mut out = format!(
        "<svg xmlns=\"http://www.w3.org/2000/svg\" width=\"{width}\" height=\"{height}\">\n<style>text {{ font: 9px sans-serif; fill: #333 }} \
         .name {{ font-weight: bold }} .end {{ text-anchor: end }} .middle {{ text-anchor: middle }} path {{ stroke: #ddd }} \
         polyline {{ fill: none; stroke-width: 1.6 }} .tested {{ stroke: #0063b1 }} .owner {{ stroke: #20a030 }} .rust {{ stroke: #c05000; stroke-dasharray: 4 2 }}</style>\n\
         <rect width=\"100%\" height=\"100%\" fill=\"white\"/>\n"
    );
    for (i, panel) in panels.iter().enumerate() {
        let (left, top) = ((i % COLUMNS) as f64 * WIDTH, (i / COLUMNS) as f64 * HEIGHT);
        let _ = writeln!(
            out,
            "<g transform=\"translate({left} {top})\">\n<text x=\"{LEFT}\" y=\"14\" class=\"name\">{}</text>",
            panel.name
        );
        out += &grid(sizes);
        out += &line(&panel.published, "rust");
        out += &line(&panel.tested, "tested");
        out += &line(&panel.owner, "owner");
        out += "</g>\n";
    }
    let _ = writeln!(out, "<g transform=\"translate({} {})\">", width - WIDTH, height - HEIGHT);
    for (at, class, label) in [(40, "tested", "tested"), (60, "owner", "the owner's"), (80, "rust", "the published Rust")] {
        let _ = writeln!(
            out,
            "<polyline class=\"{class}\" points=\"{LEFT},{at} 70,{at}\"/><text x=\"78\" y=\"{}\">{label}</text>",
            at + 3
        );
    }
    out + "</g>\n</svg>\n"
}
