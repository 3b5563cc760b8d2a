//! Dijkstra's algorithm in a memory that is kept from one search to the next.
use crate::graph::{Row, Side};
use std::cmp::Reverse;
use std::collections::BinaryHeap;

/// The label of a vertex that a search didn't come to.
pub const FAR: u64 = u64::MAX;

/// The last search: the distances that it found, and the vertices that it settled, in the order of distance.
pub struct Search {
    pub labels: Vec<u64>,
    pub settled: Vec<u32>,
    touched: Vec<u32>,
    queue: BinaryHeap<Reverse<(u64, u32)>>,
}

impl Search {
    pub fn new(vertices: usize) -> Search {
        Search {
            labels: vec![FAR; vertices + 1],
            settled: Vec::new(),
            touched: Vec::new(),
            queue: BinaryHeap::new(),
        }
    }

    fn forget(&mut self) {
        for &v in &self.touched {
            self.labels[v as usize] = FAR;
        }
        self.touched.clear();
        self.settled.clear();
        self.queue.clear();
    }

    #[inline]
    fn give(&mut self, v: u32, label: u64) {
        if self.labels[v as usize] == FAR {
            self.touched.push(v);
        }
        self.labels[v as usize] = label;
        self.queue.push(Reverse((label, v)));
    }

    /// The distance of the target, where it is within the radius: the search stops there. The target 0 is no vertex;
    /// then it labels and settles all that is within the radius.
    pub fn run(&mut self, side: &Side, root: u32, target: u32, radius: u64) -> Option<u64> {
        self.forget();
        self.give(root, 0);
        let mut limit = radius;
        while let Some(Reverse((label, v))) = self.queue.pop() {
            if v == target {
                return Some(label);
            }
            if label > self.labels[v as usize] {
                continue;
            }
            self.settled.push(v);
            for &(head, length, _) in side.rows(v) {
                let there = label + u64::from(length);
                if there <= limit && there < self.labels[head as usize] {
                    self.give(head, there);
                    if head == target {
                        limit = there;
                    }
                }
            }
        }
        None
    }

    /// The step towards the root: of the arcs that a shortest walk can have there the one of the least number. The
    /// side is that of the arcs from `v` to the root, so the other one than the search's.
    #[inline]
    pub fn step(&self, side: &Side, v: u32) -> Option<Row> {
        let label = self.labels[v as usize];
        if label == 0 {
            return None;
        }
        let is_tight = |row: &&Row| self.labels[row.0 as usize].saturating_add(u64::from(row.1)) == label;
        side.rows(v).iter().find(is_tight).copied()
    }
}
