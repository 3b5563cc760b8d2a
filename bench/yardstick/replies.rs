//! Request lines and their replies.
use crate::graph::read_graph;
use crate::routes::{Planner, Query, Ratio, Route, Verdict};
use crate::trails::{Pair, Trail};
use std::fmt::Write as _;
use std::io::{self, BufRead, Write};

/// What may stand after the vertices of a line.
struct Options {
    query: Query,
    size: usize,
}

/// Reads a line of vertices and options; none where it is faulty.
fn options_of<'a>(source: u32, target: u32, mut words: impl Iterator<Item = &'a str>) -> Option<Options> {
    let quarter = Ratio { num: 1, den: 4 };
    let gamma = Ratio { num: 4, den: 5 };
    let query = Query {
        source,
        target,
        gamma,
        alpha: quarter,
        epsilon: quarter,
    };
    let mut options = Options { query, size: 5 };
    while let Some(name) = words.next() {
        let value = words.next()?;
        match name {
            "gamma" => options.query.gamma = ratio_of(value, 1)?,
            "alpha" => options.query.alpha = ratio_of(value, 1)?,
            "epsilon" => options.query.epsilon = ratio_of(value, 4)?,
            "size" => options.size = value.parse().ok().filter(|size| (1..=64).contains(size))?,
            "since" if value.parse::<u64>().ok()? <= 1 => (),
            _ => return None,
        }
    }
    Some(options)
}

fn ratio_of(text: &str, cap: u64) -> Option<Ratio> {
    let (num, den) = text.split_once('/')?;
    let (num, den) = (num.parse().ok()?, den.parse().ok()?);
    let is_within = (1..=1_000_000).contains(&den) && num <= cap * den;
    is_within.then_some(Ratio { num, den })
}

fn write_path(reply: &mut String, head: std::fmt::Arguments<'_>, arcs: &[u32]) {
    let _ = write!(reply, "{head} arcs");
    for arc in arcs {
        let _ = write!(reply, " {arc}");
    }
    reply.push('\n');
}

fn write_optimum(reply: &mut String, optimum: &Trail) {
    write_path(
        reply,
        format_args!("optimum length {}", optimum.length()),
        &optimum.arcs,
    );
}

/// The first page, and the cursor of the next one.
fn write_page(reply: &mut String, options: &Options, optimum: &Trail, routes: &[Route]) {
    write_optimum(reply, optimum);
    for route in routes.iter().take(options.size - 1) {
        let Route {
            via,
            length,
            shared,
            plateau,
            rank,
            arcs,
        } = route;
        let head = format_args!("route via {via} length {length} shared {shared} plateau {plateau} rank {rank}");
        write_path(reply, head, arcs);
    }
    if routes.len() >= options.size {
        let Query {
            source,
            target,
            gamma,
            alpha,
            epsilon,
        } = &options.query;
        let _ = write!(reply, "more 1.{source}.{target}");
        for ratio in [gamma, alpha, epsilon] {
            let _ = write!(reply, ".{}.{}", ratio.num, ratio.den);
        }
        let _ = writeln!(reply, ".{0}.{0}", options.size);
    }
}

fn write_verdict(reply: &mut String, via: u32, verdict: &Verdict) {
    let _ = write!(reply, "verdict {via} ");
    let pair = |word: &str, pair: &Pair| format!("{word} {} {} {}", pair.first, pair.last, pair.distance);
    let text = match verdict {
        Verdict::Unreached => "unreached".to_string(),
        Verdict::Optimum => "optimum".to_string(),
        Verdict::Long(length) => format!("long {length}"),
        Verdict::Shared(length) => format!("shared {length}"),
        Verdict::Local(failing) => pair("local", failing),
        Verdict::Stretch(failing) => pair("stretch", failing),
        Verdict::Listed(name) => format!("listed {name}"),
    };
    let _ = writeln!(reply, "{text}");
}

/// Writes the reply to a line; none where it isn't a request that is known here.
fn reply_to(planner: &mut Planner, vertices: usize, line: &str, reply: &mut String) -> Option<()> {
    let mut words = line.split_ascii_whitespace();
    let word = words.next()?;
    let mut vertex = || {
        words
            .next()?
            .parse()
            .ok()
            .filter(|&v: &u32| v >= 1 && v as usize <= vertices)
    };
    let (source, target) = (vertex()?, vertex()?);
    let via = if word == "why" { Some(vertex()?) } else { None };
    let options = options_of(source, target, words)?;
    let Some(optimum) = planner.optimum(source, target) else {
        reply.push_str("none 1\n");
        return Some(());
    };
    reply.push_str("ok 1\n");
    match (word, via) {
        ("optimum", _) => write_optimum(reply, &optimum),
        ("route", _) => {
            let routes = planner.alternatives(&options.query, &optimum);
            write_page(reply, &options, &optimum, &routes);
        }
        ("why", Some(via)) => write_verdict(reply, via, &planner.verdict(&options.query, &optimum, via)),
        _ => return None,
    }
    reply.push_str("end\n");
    Some(())
}

/// Answers the lines of the standard input over the graph of a file. A line that it doesn't know ends the run.
pub fn answer(path: &str) -> io::Result<()> {
    let graph = read_graph(path)?;
    let vertices = graph.vertices;
    let mut planner = Planner::new(graph);
    let mut out = io::stdout().lock();
    let mut reply = String::new();
    for line in io::stdin().lock().lines() {
        let line = line?;
        reply.clear();
        if reply_to(&mut planner, vertices, &line, &mut reply).is_none() {
            return Err(io::Error::new(
                io::ErrorKind::InvalidInput,
                format!("not known here: {line}"),
            ));
        }
        out.write_all(reply.as_bytes())?;
    }
    Ok(())
}
