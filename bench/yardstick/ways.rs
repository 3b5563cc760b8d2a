//! The ways of the vertices near a query to its two ends: what each shares with the optimum, which vertices have one
//! path, and which paths are refused by the two trees alone.
use crate::graph::Side;
use crate::routes::Query;
use crate::search::Search;

const NO_PLACE: u32 = u32::MAX;

/// How many arcs apart the places are that are tried on one side of a path.
const STEPS: [usize; 7] = [1, 2, 4, 8, 16, 32, 64];

/// The way of a vertex to a root: its first arc (0 at the root) and the place of the next vertex, a jump to one
/// farther on, how many arcs it has, how long it is, and the length that it shares with the optimum.
#[derive(Clone, Copy)]
pub struct Way {
    pub arc: u32,
    pub parent: u32,
    jump: u32,
    depth: u32,
    pub length: u64,
    pub shared: u64,
}

const NO_WAY: Way = Way {
    arc: 0,
    parent: 0,
    jump: 0,
    depth: 0,
    length: 0,
    shared: 0,
};

/// The vertices whose path is within the bound, by places, with their ways to the source and to the target.
pub struct Ways {
    pub vertices: Vec<u32>,
    pub from: Vec<Way>,
    pub to: Vec<Way>,
    place_of: Vec<u32>,
    optimum_into: Vec<u32>,
}

/// Vertices with one path, which follow each other on it: the places of the first and of the last, and the least one.
pub struct Chain {
    pub first: u32,
    pub last: u32,
    pub least: u32,
}

impl Ways {
    pub fn new(vertices: usize) -> Ways {
        Ways {
            vertices: Vec::new(),
            from: Vec::new(),
            to: Vec::new(),
            place_of: vec![NO_PLACE; vertices + 1],
            optimum_into: Vec::new(),
        }
    }

    /// Takes the vertices whose two labels are within the bound. With each vertex it has those of both its ways.
    pub fn gather(&mut self, from: &Search, to: &Search, bound: u64) {
        for v in self.vertices.drain(..) {
            self.place_of[v as usize] = NO_PLACE;
        }
        for &v in &from.settled {
            if to.labels[v as usize].saturating_add(from.labels[v as usize]) <= bound {
                self.place_of[v as usize] = self.vertices.len() as u32;
                self.vertices.push(v);
            }
        }
    }

    /// The arc of the optimum into each place: a shortest path comes to a vertex once.
    pub fn mark(&mut self, vertices: &[u32], arcs: &[u32]) {
        self.optimum_into.clear();
        self.optimum_into.resize(self.vertices.len(), 0);
        for (v, arc) in vertices[1..].iter().zip(arcs) {
            self.optimum_into[self.place_of[*v as usize] as usize] = *arc;
        }
    }

    /// The ways to the root of a search, nearest first. The side is that of the arcs towards the root.
    pub fn ways(&self, side: &Side, search: &Search, is_from: bool, ways: &mut Vec<Way>) {
        ways.clear();
        ways.resize(self.vertices.len(), NO_WAY);
        for &v in &search.settled {
            let place = self.place_of[v as usize];
            if place == NO_PLACE {
                continue;
            }
            let length = search.labels[v as usize];
            ways[place as usize] = match search.step(side, v) {
                None => Way {
                    parent: place,
                    jump: place,
                    ..NO_WAY
                },
                Some((next, step, arc)) => {
                    let parent = self.place_of[next as usize];
                    let head = if is_from { place } else { parent };
                    let is_shared = self.optimum_into[head as usize] == arc;
                    let above = ways[parent as usize];
                    let shared = above.shared + if is_shared { u64::from(step) } else { 0 };
                    Way {
                        arc,
                        parent,
                        jump: jump_over(ways, parent),
                        depth: above.depth + 1,
                        length,
                        shared,
                    }
                }
            };
        }
    }

    /// The chains of all places. One goes on by an arc that both the tail's way to the target and the head's way to
    /// the source have.
    pub fn chains(&self) -> impl Iterator<Item = Chain> + '_ {
        let is_first = move |&first: &u32| {
            let way = self.from[first as usize];
            way.arc == 0 || self.to[way.parent as usize].arc != way.arc
        };
        (0..self.vertices.len() as u32).filter(is_first).map(move |first| {
            let (mut last, mut least) = (first, first);
            loop {
                let way = self.to[last as usize];
                if way.arc == 0 || self.from[way.parent as usize].arc != way.arc {
                    return Chain { first, last, least };
                }
                last = way.parent;
                if self.vertices[last as usize] < self.vertices[least as usize] {
                    least = last;
                }
            }
        })
    }

    /// The path through a chain has a subpath that fails a test, by the two trees alone. No refusal says nothing.
    pub fn refuses(&self, chain: &Chain, query: &Query, shortest: u64) -> bool {
        has_detour(&self.from, &self.to, chain.last, query, shortest)
            || has_detour(&self.to, &self.from, chain.first, query, shortest)
    }
}

/// Where a child jumps to: two jumps of one length make one of twice that.
fn jump_over(ways: &[Way], parent: u32) -> u32 {
    let above = ways[parent as usize];
    let middle = ways[above.jump as usize];
    let far = ways[middle.jump as usize];
    if above.depth - middle.depth == middle.depth - far.depth {
        middle.jump
    } else {
        parent
    }
}

/// Where two ways meet.
fn met(ways: &[Way], a: u32, b: u32) -> u32 {
    let depth = |v: u32| ways[v as usize].depth;
    let (mut low, mut high) = if depth(a) > depth(b) { (a, b) } else { (b, a) };
    while depth(low) > depth(high) {
        let way = ways[low as usize];
        low = if depth(way.jump) >= depth(high) {
            way.jump
        } else {
            way.parent
        };
    }
    while low != high {
        let (one, other) = (ways[low as usize], ways[high as usize]);
        (low, high) = if one.jump == other.jump {
            (one.parent, other.parent)
        } else {
            (one.jump, other.jump)
        };
    }
    low
}

/// A subpath that begins on the way of `w` in the own tree, and ends at some place `x` of its way in the other one,
/// has to be shortest and isn't, or is stretched too far: it is compared with the own way of `x`, from where the two
/// ways meet.
fn has_detour(own: &[Way], other: &[Way], w: u32, query: &Query, shortest: u64) -> bool {
    let mut x = w;
    for steps in STEPS {
        for _ in 0..steps {
            if other[x as usize].arc == 0 {
                return false;
            }
            x = other[x as usize].parent;
        }
        let start = own[met(own, w, x) as usize].length;
        let long = own[w as usize].length - start + other[w as usize].length - other[x as usize].length;
        let distance = own[x as usize].length - start;
        let is_detour = long > distance && query.alpha.allows(long, shortest);
        if is_detour || !query.epsilon.stretches(long, distance) {
            return true;
        }
    }
    false
}
