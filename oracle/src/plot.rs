//! Draws how the time of each call grows with the number of cells: reads the rows that `bench` prints from standard input and writes an SVG picture,
//! one panel for each terrain, nanoseconds for each cell over the number of cells. Whole lines are the library's, broken ones the source's.
use std::io::{self, Read};

/// A row of the bench.
struct Row {
    call: String,
    cells: f64,
    terrain: String,
    /// nanoseconds for each cell
    source: f64,
    library: f64,
}

fn parse(line: &str) -> Option<Row> {
    let parts: Vec<&str> = line.split('|').map(str::trim).collect();
    let [_, call, grid, terrain, source, library, _, _] = parts[..] else { return None };
    let side: f64 = grid.strip_suffix('²')?.parse().ok()?;
    let cells = side * side;
    let each = |ms: &str| ms.parse::<f64>().ok().map(|t| t * 1e6 / cells);
    Some(Row {
        call: call.trim_matches('`').to_string(),
        cells,
        terrain: terrain.to_string(),
        source: each(source)?,
        library: each(library)?,
    })
}

const COLOURS: [&str; 6] = ["#1f77b4", "#d62728", "#2ca02c", "#9467bd", "#ff7f0e", "#8c564b"];
const PANEL: (f64, f64) = (360.0, 320.0);
const LEFT: f64 = 76.0;
const TOP: f64 = 40.0;

/// Where a value stands between two ends on a logarithmic scale, from 0 to 1.
fn at(value: f64, ends: (f64, f64)) -> f64 {
    (value / ends.0).ln() / (ends.1 / ends.0).ln()
}

/// The ends of the scale of nanoseconds: whole powers of ten around all rows.
fn ends(rows: &[Row]) -> (f64, f64) {
    let all = rows.iter().flat_map(|r| [r.source, r.library]);
    let (low, high) = all.fold((f64::MAX, 0.0f64), |(low, high), t| (low.min(t), high.max(t)));
    (10f64.powf(low.log10().floor()), 10f64.powf(high.log10().ceil()))
}

fn unique(names: impl Iterator<Item = String>) -> Vec<String> {
    names.fold(Vec::new(), |mut seen, name| {
        if !seen.contains(&name) {
            seen.push(name);
        }
        seen
    })
}

/// The frame of a panel with its scales.
fn frame(x: f64, title: &str, cells: (f64, f64), times: (f64, f64)) {
    println!(r##"<rect x="{x}" y="{TOP}" width="{}" height="{}" fill="none" stroke="#888"/>"##, PANEL.0, PANEL.1);
    println!(r##"<text x="{}" y="{}" text-anchor="middle">{title}</text>"##, x + PANEL.0 / 2.0, TOP - 12.0);
    let mut t = times.0;
    while t <= times.1 * 1.001 {
        let y = TOP + PANEL.1 * (1.0 - at(t, times));
        println!(r##"<line x1="{x}" x2="{}" y1="{y:.1}" y2="{y:.1}" stroke="#ddd"/>"##, x + PANEL.0);
        println!(r##"<text x="{}" y="{:.1}" text-anchor="end">{t} ns</text>"##, x - 6.0, y + 4.0);
        t *= 10.0;
    }
    let mut side = cells.0.sqrt();
    while side * side <= cells.1 * 1.001 {
        let here = x + PANEL.0 * at(side * side, cells);
        println!(r##"<text x="{here:.1}" y="{}" text-anchor="middle">{side}²</text>"##, TOP + PANEL.1 + 18.0);
        side *= 2.0;
    }
}

/// A line through the points of one call.
fn line(points: &[(f64, f64)], colour: &str, broken: bool) {
    let places: Vec<String> = points.iter().map(|(x, y)| format!("{x:.1},{y:.1}")).collect();
    let dashes = if broken { r##" stroke-dasharray="5 4""## } else { "" };
    println!(r##"<polyline points="{}" fill="none" stroke="{colour}" stroke-width="2"{dashes}/>"##, places.join(" "));
}

fn main() {
    let mut text = String::new();
    io::stdin().read_to_string(&mut text).expect("the bench's rows on standard input");
    let rows: Vec<Row> = text.lines().filter_map(parse).collect();
    assert!(!rows.is_empty(), "no row of the bench on standard input");
    let calls = unique(rows.iter().map(|r| r.call.clone()));
    let terrains = unique(rows.iter().map(|r| r.terrain.clone()));
    let least = rows.iter().map(|r| r.cells).fold(f64::MAX, f64::min);
    let most = rows.iter().map(|r| r.cells).fold(0.0, f64::max);
    let (cells, times) = ((least, most.max(least * 4.0)), ends(&rows));
    let width = LEFT + (PANEL.0 + LEFT) * terrains.len() as f64;
    let height = TOP + PANEL.1 + 40.0 + 20.0 * calls.len() as f64;
    println!(
        r##"<svg xmlns="http://www.w3.org/2000/svg" viewBox="0 0 {width} {height}" font-family="sans-serif" font-size="12">"##
    );
    println!(r##"<rect width="{width}" height="{height}" fill="white"/>"##);
    for (p, terrain) in terrains.iter().enumerate() {
        let x = LEFT + (PANEL.0 + LEFT) * p as f64;
        frame(x, &format!("{terrain}: time for each cell, by cells"), cells, times);
        for (call, colour) in calls.iter().zip(COLOURS.iter().cycle()) {
            let of = |pick: fn(&Row) -> f64| -> Vec<(f64, f64)> {
                let own = rows.iter().filter(|r| r.call == *call && r.terrain == *terrain);
                own.map(|r| (x + PANEL.0 * at(r.cells, cells), TOP + PANEL.1 * (1.0 - at(pick(r), times)))).collect()
            };
            line(&of(|r| r.library), colour, false);
            line(&of(|r| r.source), colour, true);
        }
    }
    for (i, (call, colour)) in calls.iter().zip(COLOURS.iter().cycle()).enumerate() {
        let y = TOP + PANEL.1 + 40.0 + 20.0 * i as f64;
        line(&[(LEFT, y), (LEFT + 30.0, y)], colour, false);
        line(&[(LEFT + 40.0, y), (LEFT + 70.0, y)], colour, true);
        println!(r##"<text x="{}" y="{}">{call}: library, source</text>"##, LEFT + 80.0, y + 4.0);
    }
    println!("</svg>");
}
