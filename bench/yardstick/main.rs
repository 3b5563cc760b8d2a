//! The jobs of `road check`, `print`, `make`, and `answer` for `optimum`, `route` and `why` lines, in plain Rust with
//! std alone: the yardstick of the figures. It takes the same words, and checks the form of a graph file, but names
//! no fault; a line that it doesn't know, a cursor among them, ends the run.
//!
//! An answer is found by the plan of the proved program, so that the ratio of the times tells what the proofs cost.
//! Slower by choice are numbers, which std prints, and the queue: std's heap with two children makes a search take a
//! fifth to a quarter longer than one with four does. There is no hierarchy: each question of a test is a search that
//! stops at its target, however many there are. Quicker may be that the arcs of both trees, and the jumps on them, are
//! found once for each vertex in one pass, and that a question never looks farther than the path is long.
//! rustc --edition 2021 -O -C target-cpu=x86-64-v2 main.rs
mod graph;
mod replies;
mod routes;
mod search;
mod trails;
mod ways;

use graph::{read_rows, Row};
use std::io::{self, BufWriter, Write};

fn check(path: &str) -> io::Result<()> {
    let (vertices, rows) = read_rows(path)?;
    println!("graph vertices {vertices} arcs {}", rows.len());
    Ok(())
}

fn write_rows(vertices: usize, rows: &[Row]) -> io::Result<()> {
    let mut out = BufWriter::with_capacity(1 << 16, io::stdout().lock());
    writeln!(out, "p sp {} {}", vertices, rows.len())?;
    for (tail, head, length) in rows {
        writeln!(out, "a {tail} {head} {length}")?;
    }
    out.flush()
}

fn print(path: &str) -> io::Result<()> {
    let (vertices, rows) = read_rows(path)?;
    write_rows(vertices, &rows)
}

fn make(seed: u64, width: u32, height: u32) -> io::Result<()> {
    let mut state = seed;
    let mut length = || {
        state = state.wrapping_add(0x9E37_79B9_7F4A_7C15);
        let z = (state ^ (state >> 30)).wrapping_mul(0xBF58_476D_1CE4_E5B9);
        let z = (z ^ (z >> 27)).wrapping_mul(0x94D0_49BB_1331_11EB);
        1 + ((z ^ (z >> 31)) % 1000) as u32
    };
    let vertices = width * height;
    let mut rows = Vec::with_capacity(4 * vertices as usize);
    for v in 1..=vertices {
        let right = (v % width != 0).then_some(v + 1);
        let lower = (v + width <= vertices).then_some(v + width);
        for w in right.into_iter().chain(lower) {
            rows.push((v, w, length()));
            rows.push((w, v, length()));
        }
    }
    write_rows(vertices as usize, &rows)
}

fn main() -> io::Result<()> {
    let words: Vec<String> = std::env::args().skip(1).collect();
    match words[0].as_str() {
        "check" => check(&words[1]),
        "print" => print(&words[1]),
        "make" => make(
            words[1].parse().unwrap(),
            words[2].parse().unwrap(),
            words[3].parse().unwrap(),
        ),
        _ => replies::answer(&words[1]),
    }
}
