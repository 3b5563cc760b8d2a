//! The optimum of a query, its alternatives in rank order, and the verdict on a vertex.
use crate::graph::Graph;
use crate::search::{Search, FAR};
use crate::trails::{Pair, Tests, Trail};
use crate::ways::{Chain, Ways};
use std::mem;

/// A ratio of a query. Whatever is compared with it is compared by cross products.
#[derive(Clone, Copy)]
pub struct Ratio {
    pub num: u64,
    pub den: u64,
}

impl Ratio {
    fn cross(self, part: u64, whole: u64) -> (u128, u128) {
        (
            u128::from(part) * u128::from(self.den),
            u128::from(whole) * u128::from(self.num),
        )
    }

    /// A part is at most this ratio of a whole.
    #[inline]
    pub fn allows(self, part: u64, whole: u64) -> bool {
        let (part, whole) = self.cross(part, whole);
        part <= whole
    }

    /// A part is below this ratio of a whole.
    #[inline]
    pub fn is_above(self, part: u64, whole: u64) -> bool {
        let (part, whole) = self.cross(part, whole);
        part < whole
    }

    /// A length is at most a distance and this ratio of it.
    #[inline]
    pub fn stretches(self, length: u64, distance: u64) -> bool {
        Ratio {
            num: self.num + self.den,
            ..self
        }
        .allows(length, distance)
    }

    /// The greatest length that does.
    fn bound(self, distance: u64) -> u64 {
        (u128::from(distance) * u128::from(self.num + self.den) / u128::from(self.den)) as u64
    }
}

/// What is asked for.
pub struct Query {
    pub source: u32,
    pub target: u32,
    pub gamma: Ratio,
    pub alpha: Ratio,
    pub epsilon: Ratio,
}

/// An alternative, with its numbers.
pub struct Route {
    pub via: u32,
    pub length: u64,
    pub shared: u64,
    pub plateau: u64,
    pub rank: u64,
    pub arcs: Vec<u32>,
}

/// Why the path through a vertex is, or isn't, an alternative.
pub enum Verdict {
    Unreached,
    Optimum,
    Long(u64),
    Shared(u64),
    Local(Pair),
    Stretch(Pair),
    Listed(u32),
}

/// A graph, and the memory of the searches and tables of one query after another.
pub struct Planner {
    graph: Graph,
    from: Search,
    to: Search,
    asked: Search,
    ways: Ways,
}

impl Planner {
    pub fn new(graph: Graph) -> Planner {
        let n = graph.vertices;
        Planner {
            from: Search::new(n),
            to: Search::new(n),
            asked: Search::new(n),
            ways: Ways::new(n),
            graph,
        }
    }

    /// The canonical shortest path.
    pub fn optimum(&mut self, source: u32, target: u32) -> Option<Trail> {
        self.from.run(&self.graph.out, source, target, FAR)?;
        Some(self.half_trail(target))
    }

    /// The canonical path from the source of the last search to a vertex.
    fn half_trail(&self, v: u32) -> Trail {
        let (mut arcs, mut vertices, mut sums) = (Vec::new(), vec![v], vec![self.from.labels[v as usize]]);
        let mut at = v;
        while let Some((tail, _, arc)) = self.from.step(&self.graph.into, at) {
            arcs.push(arc);
            vertices.push(tail);
            sums.push(self.from.labels[tail as usize]);
            at = tail;
        }
        arcs.reverse();
        vertices.reverse();
        sums.reverse();
        Trail {
            via_at: arcs.len(),
            arcs,
            vertices,
            sums,
        }
    }

    /// The canonical path through a vertex that both of the last searches came to.
    fn trail(&self, via: u32) -> Trail {
        let mut trail = self.half_trail(via);
        let whole = self.from.labels[via as usize] + self.to.labels[via as usize];
        let mut at = via;
        while let Some((head, _, arc)) = self.to.step(&self.graph.out, at) {
            trail.arcs.push(arc);
            trail.vertices.push(head);
            trail.sums.push(whole - self.to.labels[head as usize]);
            at = head;
        }
        trail
    }

    /// Searches as far as a radius from both ends.
    fn balls(&mut self, query: &Query, radius: u64) {
        self.from.run(&self.graph.out, query.source, 0, radius);
        self.to.run(&self.graph.into, query.target, 0, radius);
    }

    /// Every alternative, in order.
    pub fn alternatives(&mut self, query: &Query, optimum: &Trail) -> Vec<Route> {
        let bound = query.epsilon.bound(optimum.length());
        self.balls(query, bound);
        self.lay_out(optimum, bound);
        // The table is taken out while the searches of the tests run.
        let ways = mem::replace(&mut self.ways, Ways::new(0));
        let mut routes: Vec<Route> = ways
            .chains()
            .filter_map(|chain| self.route(query, optimum, &ways, &chain))
            .collect();
        self.ways = ways;
        routes.sort_by_key(|route| (route.rank, route.via));
        routes
    }

    fn lay_out(&mut self, optimum: &Trail, bound: u64) {
        let (graph, ways) = (&self.graph, &mut self.ways);
        ways.gather(&self.from, &self.to, bound);
        ways.mark(&optimum.vertices, &optimum.arcs);
        let (mut from, mut to) = (mem::take(&mut ways.from), mem::take(&mut ways.to));
        ways.ways(&graph.into, &self.from, true, &mut from);
        ways.ways(&graph.out, &self.to, false, &mut to);
        (ways.from, ways.to) = (from, to);
    }

    /// The route of a chain's path, where it is an alternative. The optimum's chain ends at the target.
    fn route(&mut self, query: &Query, optimum: &Trail, ways: &Ways, chain: &Chain) -> Option<Route> {
        let shortest = optimum.length();
        let least = chain.least as usize;
        let shared = ways.from[least].shared + ways.to[least].shared;
        let is_optimum = ways.to[chain.last as usize].arc == 0;
        if is_optimum || !query.gamma.allows(shared, shortest) || ways.refuses(chain, query, shortest) {
            return None;
        }
        let trail = self.trail(ways.vertices[least]);
        let mut tests = Tests {
            out: &self.graph.out,
            search: &mut self.asked,
            trail: &trail,
        };
        if tests.failing_start(query.alpha, shortest).is_some() || tests.stretch(query.epsilon, true).is_some() {
            return None;
        }
        let plateau = ways.from[chain.last as usize].length - ways.from[chain.first as usize].length;
        let length = trail.length();
        let rank = 2 * length + shared - plateau;
        Some(Route {
            via: ways.vertices[least],
            length,
            shared,
            plateau,
            rank,
            arcs: trail.arcs,
        })
    }

    /// The first verdict that holds of a vertex.
    pub fn verdict(&mut self, query: &Query, optimum: &Trail, via: u32) -> Verdict {
        let near = self.from.run(&self.graph.out, query.source, via, FAR);
        let left = self.to.run(&self.graph.into, query.target, via, FAR);
        let (Some(near), Some(left)) = (near, left) else {
            return Verdict::Unreached;
        };
        let (length, shortest) = (near + left, optimum.length());
        if !query.epsilon.stretches(length, shortest) {
            return Verdict::Long(length);
        }
        self.balls(query, length);
        let trail = self.trail(via);
        if trail.arcs == optimum.arcs {
            return Verdict::Optimum;
        }
        let shared = shared(&trail, optimum);
        if !query.gamma.allows(shared, shortest) {
            return Verdict::Shared(shared);
        }
        let mut tests = Tests {
            out: &self.graph.out,
            search: &mut self.asked,
            trail: &trail,
        };
        if let Some(pair) = tests.local(query, shortest) {
            return Verdict::Local(pair);
        }
        if let Some(pair) = tests.stretch(query.epsilon, false) {
            return Verdict::Stretch(pair);
        }
        Verdict::Listed(self.name(&trail))
    }

    /// The least of the vertices with this path: those round its via, as far as both trees have its arcs.
    fn name(&self, trail: &Trail) -> u32 {
        let has_arc = |step: Option<(u32, u32, u32)>, arc: u32| step.is_some_and(|row| row.2 == arc);
        let (mut first, mut last) = (trail.via_at, trail.via_at);
        while first > 0
            && has_arc(
                self.to.step(&self.graph.out, trail.vertices[first - 1]),
                trail.arcs[first - 1],
            )
        {
            first -= 1;
        }
        while last < trail.arcs.len()
            && has_arc(
                self.from.step(&self.graph.into, trail.vertices[last + 1]),
                trail.arcs[last],
            )
        {
            last += 1;
        }
        trail.vertices[first..=last]
            .iter()
            .copied()
            .min()
            .expect("the via is among them")
    }
}

/// The length of the arcs that a path and the optimum have in common, each once.
fn shared(trail: &Trail, optimum: &Trail) -> u64 {
    let mut numbers = trail.arcs.clone();
    numbers.sort_unstable();
    let lengths = optimum.sums.windows(2).map(|sums| sums[1] - sums[0]);
    let both = optimum
        .arcs
        .iter()
        .zip(lengths)
        .filter(|(arc, _)| numbers.binary_search(arc).is_ok());
    both.map(|(_, length)| length).sum()
}
