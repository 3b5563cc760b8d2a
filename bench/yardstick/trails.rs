//! The tests of a path by questions: whether its short subpaths are shortest, and how far others are stretched. It is
//! made of two shortest walks, so only subpaths round the vertex where these join can fail.
use crate::graph::Side;
use crate::routes::{Query, Ratio};
use crate::search::Search;

/// A path by its arcs, the vertices at its places, the lengths up to them, and the place where its two halves join.
pub struct Trail {
    pub arcs: Vec<u32>,
    pub vertices: Vec<u32>,
    pub sums: Vec<u64>,
    pub via_at: usize,
}

impl Trail {
    pub fn length(&self) -> u64 {
        self.between(0, self.sums.len() - 1)
    }

    #[inline]
    fn between(&self, first: usize, last: usize) -> u64 {
        self.sums[last] - self.sums[first]
    }
}

/// Two places of a path, and the distance of their vertices.
#[derive(Clone, Copy)]
pub struct Pair {
    pub first: usize,
    pub last: usize,
    pub distance: u64,
}

/// The first places from `low` to before `high`, by the last places from `from` up to `to`. Of all its pairs that of
/// `low` and `to` has the greatest excess over the distance.
#[derive(Clone, Copy)]
struct Rectangle {
    low: usize,
    high: usize,
    from: usize,
    to: usize,
}

impl Rectangle {
    /// The half that has the outermost pair, and the other one.
    fn halves(self) -> (Rectangle, Rectangle) {
        if self.high - self.low > self.to - self.from {
            let middle = self.low + (self.high - self.low) / 2;
            (Rectangle { high: middle, ..self }, Rectangle { low: middle, ..self })
        } else {
            let middle = self.from + (self.to - self.from) / 2;
            (
                Rectangle {
                    from: middle + 1,
                    ..self
                },
                Rectangle { to: middle, ..self },
            )
        }
    }
}

/// A path that is put to the test; each question is a search that stops at its target.
pub struct Tests<'a> {
    pub out: &'a Side,
    pub search: &'a mut Search,
    pub trail: &'a Trail,
}

impl Tests<'_> {
    fn distance(&mut self, first: usize, last: usize) -> u64 {
        let trail = self.trail;
        let (from, to) = (trail.vertices[first], trail.vertices[last]);
        self.search
            .run(self.out, from, to, trail.between(first, last))
            .expect("the path leads there")
    }

    fn is_tested(&self, alpha: Ratio, shortest: u64, first: usize, last: usize) -> bool {
        let trail = self.trail;
        alpha.allows(trail.between(first, last), shortest)
            || alpha.is_above(trail.between(first + 1, last - 1), shortest)
    }

    /// The distance between two places, where it is less than the subpath is long.
    fn detour(&mut self, first: usize, last: usize) -> Option<u64> {
        if last == self.trail.via_at {
            return None;
        }
        let distance = self.distance(first, last);
        (distance < self.trail.between(first, last)).then_some(distance)
    }

    /// The last place up to which subpaths from `first` are tested.
    fn last_tested(&self, alpha: Ratio, shortest: u64, first: usize) -> usize {
        let mut last = self.trail.via_at;
        while last + 1 < self.trail.vertices.len() && self.is_tested(alpha, shortest, first, last + 1) {
            last += 1;
        }
        last
    }

    /// The least first place with a subpath that fails local optimality, and the last place of those that are tested.
    /// A range of first places is cleared by one question; it is doubled after each that does, and halved after each
    /// that doesn't.
    pub fn failing_start(&mut self, alpha: Ratio, shortest: u64) -> Option<Pair> {
        let via_at = self.trail.via_at;
        if via_at + 1 == self.trail.vertices.len() {
            return None;
        }
        let mut first = (0..via_at).find(|&first| self.is_tested(alpha, shortest, first, via_at + 1))?;
        let mut width = 1;
        while first < via_at {
            let end = via_at.min(first + width);
            let last = self.last_tested(alpha, shortest, end - 1);
            match self.detour(first, last) {
                None => {
                    width = 2 * (end - first);
                    first = end;
                }
                Some(distance) if end - first == 1 => return Some(Pair { first, last, distance }),
                Some(_) => width = (end - first) / 2,
            }
        }
        None
    }

    /// The least pair that fails local optimality.
    pub fn local(&mut self, query: &Query, shortest: u64) -> Option<Pair> {
        let mut pair = self.failing_start(query.alpha, shortest)?;
        let mut clear = self.trail.via_at;
        while pair.last - clear > 1 {
            let middle = clear + (pair.last - clear) / 2;
            match self.detour(pair.first, middle) {
                None => clear = middle,
                Some(distance) => {
                    pair = Pair {
                        last: middle,
                        distance,
                        ..pair
                    }
                }
            }
        }
        Some(pair)
    }

    /// The least pair that is stretched too far, or any.
    pub fn stretch(&mut self, epsilon: Ratio, any: bool) -> Option<Pair> {
        let (via_at, places) = (self.trail.via_at, self.trail.vertices.len());
        if via_at == 0 || via_at + 1 == places {
            return None;
        }
        let whole = Rectangle {
            low: 0,
            high: via_at,
            from: via_at + 1,
            to: places - 1,
        };
        let distance = self.distance(whole.low, whole.to);
        self.stretch_in(epsilon, any, whole, distance)
    }

    /// The same of a rectangle, by the distance of its outermost pair. No subpath has a greater excess than that
    /// pair, and none is shorter than the innermost one.
    fn stretch_in(&mut self, epsilon: Ratio, any: bool, area: Rectangle, distance: u64) -> Option<Pair> {
        let excess = self.trail.between(area.low, area.to) - distance;
        let inner = self.trail.between(area.high - 1, area.from);
        if excess <= inner && epsilon.stretches(inner, inner - excess) {
            return None;
        }
        if area.high - area.low == 1 && area.from == area.to {
            return Some(Pair {
                first: area.low,
                last: area.to,
                distance,
            });
        }
        let (outer, other) = area.halves();
        let found = self.stretch_in(epsilon, any, outer, distance);
        if found.is_some_and(|pair| any || pair.first < other.low) {
            return found;
        }
        let distance = self.distance(other.low, other.to);
        let next = self.stretch_in(epsilon, any, other, distance);
        [found, next]
            .into_iter()
            .flatten()
            .min_by_key(|pair| (pair.first, pair.last))
    }
}
