//! Measures the proved calls against Rust, in one run, on the same inputs, and prints tables.
//!
//! Usage: `bench WALK RUST_WALK`, the two programs that are compared end to end; without them that part is left out.

// The contenders take the areas that the calls take.
#![allow(clippy::too_many_arguments)]

mod plain;
mod programs;
mod same;
mod shapes;
mod timing;
mod walks;

use shapes::Profile;
use std::path::Path;
use walks::Row;

const SHAPES: [fn(usize, usize) -> Vec<Profile>; 4] =
    [shapes::sparse, shapes::dense, shapes::chain, shapes::star];

/// One line for each call, one column for each shape.
fn table(
    title: &str,
    profiles: &[(Vec<Profile>, Vec<Row>)],
    cell: impl Fn(&Row) -> Option<String>,
) {
    println!("\n{title}\n");
    let shapes: Vec<_> = profiles.iter().map(|(all, _)| all[0].shape).collect();
    println!(
        "| Call | {} |\n|---|{}",
        shapes.join(" | "),
        "---:|".repeat(shapes.len())
    );
    for k in 0..profiles[0].1.len() {
        let cells: Option<Vec<_>> = profiles.iter().map(|(_, rows)| cell(&rows[k])).collect();
        if let Some(cells) = cells {
            println!("| `{}` | {} |", profiles[0].1[k].call, cells.join(" | "));
        }
    }
}

/// The proved calls and the plain searches on profiles of one shape, each ten times as large as the one before, up to
/// the limits.
fn growth(shape: fn(usize, usize) -> Vec<Profile>) {
    let sizes = [(1, 4), (10, 40), (100, 400), (1000, 4000)];
    let grown = sizes.map(|(n, m)| {
        let profiles = shape(n, m);
        (walks::rows(&profiles), profiles[0].shape, n + m)
    });
    println!(
        "\nNanoseconds for each element and reference, as n + m grows ({})\n",
        grown[0].1
    );
    let nodes = grown.each_ref().map(|(_, _, nodes)| nodes.to_string());
    println!(
        "| Call | {} |\n|---|{}",
        nodes.join(" | "),
        "---:|".repeat(nodes.len())
    );
    let line = |name: &str, time: &dyn Fn(&[Row]) -> f64| {
        let cells = grown.each_ref().map(|(rows, _, nodes)| {
            let each = time(rows) / *nodes as f64;
            format!("{each:.1}")
        });
        println!("| {name} | {} |", cells.join(" | "));
    };
    for (k, row) in grown[0].0.iter().enumerate() {
        line(&format!("`{}`", row.call), &|rows| rows[k].proved);
    }
    for (name, call) in [
        ("plain depth-first", "dfs_recursive"),
        ("plain breadth-first", "bfs_queue"),
    ] {
        line(name, &|rows| {
            let row = rows.iter().find(|row| row.call == call);
            row.and_then(|row| row.plain).expect("a plain search")
        });
    }
}

fn main() {
    let programs: Vec<String> = std::env::args().skip(1).collect();
    let measured: Vec<_> = SHAPES
        .iter()
        .map(|shape| {
            let profiles = shape(1000, 4000);
            let rows = walks::rows(&profiles);
            (profiles, rows)
        })
        .collect();
    table(
        "Time of the proved call, in microseconds (n = 1,000, m = 4,000)",
        &measured,
        |row| Some(format!("{:.1}", row.proved / 1000.0)),
    );
    table(
        "Proved, as a multiple of the same algorithm in safe Rust",
        &measured,
        |row| Some(format!("{:.2}", row.proved / row.same)),
    );
    table(
        "Proved, as a multiple of the fastest plain search on arrays",
        &measured,
        |row| row.plain.map(|plain| format!("{:.1}", row.proved / plain)),
    );

    for shape in [shapes::sparse, shapes::chain] {
        growth(shape);
    }

    if let [proved, rust] = programs.as_slice() {
        println!("\n`walk` end to end, in microseconds, and as a multiple of the Rust program\n");
        println!("| Profile | `walk` | Rust | ratio |\n|---|---:|---:|---:|");
        for profile in measured.iter().map(|(profiles, _)| &profiles[0]) {
            let (ours, theirs) = programs::compare(Path::new(proved), Path::new(rust), profile);
            println!(
                "| {} | {ours:.0} | {theirs:.0} | {:.2} |",
                profile.shape,
                ours / theirs
            );
        }
    }
}
