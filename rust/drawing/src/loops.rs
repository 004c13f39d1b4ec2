//! The loops of a leaf: document 01, "Steps and loops".

use crate::crossings::Crossings;
use crate::faces::leaf_steps;

/// Walks the loops of one leaf after another. Between leaves every slot of `next` is empty, so a leaf costs
/// time by its own points alone.
pub(crate) struct LoopWalk<'a> {
    crossings: &'a Crossings<'a>,
    /// For each point, where the step that leaves it on this leaf goes.
    next: Vec<Option<u32>>,
    /// The points that face steps meet on this leaf.
    met: Vec<u32>,
    /// The loop being walked.
    points: Vec<u32>,
    touching: Vec<usize>,
}

impl<'a> LoopWalk<'a> {
    /// A walk over the leaves of a survey.
    pub(crate) fn over(crossings: &'a Crossings<'a>) -> LoopWalk<'a> {
        LoopWalk {
            crossings,
            next: vec![None; crossings.count()],
            met: Vec::new(),
            points: Vec::new(),
            touching: Vec::new(),
        }
    }

    /// Calls `visit` with each loop of a leaf: each from its lowest point, loops rising by that point.
    pub(crate) fn leaf_loops(&mut self, leaf: usize, mut visit: impl FnMut(&[u32])) {
        self.take_face_steps(leaf);
        self.met.sort_unstable();
        self.met.dedup();
        for &point in &self.met {
            if self.next[point as usize].is_none() {
                self.next[point as usize] = self.crossings.twin(point);
            }
        }
        for index in 0..self.met.len() {
            if self.walk(self.met[index]) {
                visit(&self.points);
            }
        }
    }

    fn take_face_steps(&mut self, leaf: usize) {
        let LoopWalk { crossings, next, met, touching, .. } = self;
        met.clear();
        leaf_steps(crossings, leaf, touching, |[from, to]| {
            let taken = next[from as usize].replace(to);
            debug_assert!(taken.is_none(), "two face steps leave point {from} on leaf {leaf}");
            met.extend([from, to]);
        });
    }

    /// Walks from a point until the walk is back, emptying the slots on its way. False if an earlier loop
    /// has been through the point already.
    fn walk(&mut self, start: u32) -> bool {
        self.points.clear();
        let mut point = start;
        while let Some(following) = self.next[point as usize].take() {
            self.points.push(point);
            point = following;
        }
        // Document 003, 3.2: one step leads to each point that one leaves, twin steps included.
        assert_eq!(point, start, "a walk ends where it began");
        !self.points.is_empty()
    }
}
