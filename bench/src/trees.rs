//! Event trees of interval tree clocks, as boxed enums: the clocks of the peer.

use crate::ids::Id;
use std::fmt;

/// An event tree: a number, or a base and two trees above it. In normal form
/// one branch has base 0, and the smallest value of a tree is its base.
#[derive(Clone, Debug, PartialEq, Eq)]
pub enum Tree {
    Leaf(u32),
    Node(u32, Box<Tree>, Box<Tree>),
}

use Tree::{Leaf, Node};

/// What growing a leaf into a node costs more.
const WIDEN: u32 = 1000;

/// A node in normal form, from branches in normal form.
fn norm(base: u32, lower: Tree, upper: Tree) -> Tree {
    match (lower, upper) {
        (Leaf(a), Leaf(b)) if a == b => Leaf(base + a),
        (lower, upper) => {
            let least = lower.base().min(upper.base());
            Node(
                base + least,
                Box::new(lower.sunk(least)),
                Box::new(upper.sunk(least)),
            )
        }
    }
}

impl Tree {
    pub fn base(&self) -> u32 {
        match self {
            Leaf(n) | Node(n, ..) => *n,
        }
    }

    fn sunk(mut self, by: u32) -> Tree {
        match &mut self {
            Leaf(n) | Node(n, ..) => *n -= by,
        }
        self
    }

    /// The largest value.
    pub fn top(&self) -> u32 {
        match self {
            Leaf(n) => *n,
            Node(n, lower, upper) => n + lower.top().max(upper.top()),
        }
    }

    /// How many nodes, leaves included.
    pub fn size(&self) -> usize {
        match self {
            Leaf(_) => 1,
            Node(_, lower, upper) => 1 + lower.size() + upper.size(),
        }
    }

    /// Whether this tree's value is at least the other's at every place.
    pub fn covers(&self, other: &Tree) -> bool {
        covers(self, 0, other, 0)
    }

    /// The larger value at every place.
    pub fn join(&self, other: &Tree) -> Tree {
        join(self, 0, other, 0)
    }

    /// The tree flattened where the id allows it without a new value.
    pub fn fill(&self, id: &Id) -> Tree {
        match (id, self) {
            (Id::Zero, tree) => tree.clone(),
            (Id::One, tree) => Leaf(tree.top()),
            (Id::Pair(..), Leaf(n)) => Leaf(*n),
            (Id::Pair(l, r), Node(n, a, b)) => match (&**l, &**r) {
                (Id::One, r) => {
                    let upper = b.fill(r);
                    norm(*n, Leaf(a.top().max(upper.base())), upper)
                }
                (l, Id::One) => {
                    let lower = a.fill(l);
                    let top = b.top().max(lower.base());
                    norm(*n, lower, Leaf(top))
                }
                (l, r) => norm(*n, a.fill(l), b.fill(r)),
            },
        }
    }

    /// The tree with one value raised under the id, which is not 0 and which
    /// fill does not change, and the cost of it.
    pub fn grow(&self, id: &Id) -> (Tree, u32) {
        match (id, self) {
            (Id::Zero | Id::One, tree) => (Leaf(tree.base() + 1), 0),
            (Id::Pair(..), Leaf(n)) => {
                let widened = Node(*n, Box::new(Leaf(0)), Box::new(Leaf(0)));
                let (grown, cost) = widened.grow(id);
                (grown, cost + WIDEN)
            }
            (Id::Pair(l, r), Node(n, a, b)) => match (&**l, &**r) {
                (Id::Zero, r) => {
                    let (upper, cost) = b.grow(r);
                    (Node(*n, a.clone(), Box::new(upper)), cost + 1)
                }
                (l, Id::Zero) => {
                    let (lower, cost) = a.grow(l);
                    (Node(*n, Box::new(lower), b.clone()), cost + 1)
                }
                (l, r) => {
                    let (lower, low) = a.grow(l);
                    let (upper, high) = b.grow(r);
                    if low < high {
                        (Node(*n, Box::new(lower), b.clone()), low + 1)
                    } else {
                        (Node(*n, a.clone(), Box::new(upper)), high + 1)
                    }
                }
            },
        }
    }
}

/// A leaf beside a node counts as a node of two leaves 0.
static NOTHING: Tree = Leaf(0);

fn covers(a: &Tree, up_a: u32, b: &Tree, up_b: u32) -> bool {
    let (at_a, at_b) = (up_a + a.base(), up_b + b.base());
    if at_a < at_b {
        return false;
    }
    match (a, b) {
        (_, Leaf(_)) => true,
        (Leaf(_), Node(_, lower, upper)) => {
            covers(&NOTHING, at_a, lower, at_b) && covers(&NOTHING, at_a, upper, at_b)
        }
        (Node(_, l1, u1), Node(_, l2, u2)) => {
            covers(l1, at_a, l2, at_b) && covers(u1, at_a, u2, at_b)
        }
    }
}

fn join(a: &Tree, up_a: u32, b: &Tree, up_b: u32) -> Tree {
    let (at_a, at_b) = (up_a + a.base(), up_b + b.base());
    let base = at_a.min(at_b);
    let (up_a, up_b) = (at_a - base, at_b - base);
    match (a, b) {
        (Leaf(_), Leaf(_)) => Leaf(at_a.max(at_b)),
        (Leaf(_), Node(_, lower, upper)) => norm(
            base,
            join(&NOTHING, up_a, lower, up_b),
            join(&NOTHING, up_a, upper, up_b),
        ),
        (Node(_, lower, upper), Leaf(_)) => norm(
            base,
            join(lower, up_a, &NOTHING, up_b),
            join(upper, up_a, &NOTHING, up_b),
        ),
        (Node(_, l1, u1), Node(_, l2, u2)) => {
            norm(base, join(l1, up_a, l2, up_b), join(u1, up_a, u2, up_b))
        }
    }
}

impl fmt::Display for Tree {
    fn fmt(&self, f: &mut fmt::Formatter) -> fmt::Result {
        match self {
            Leaf(n) => write!(f, "{n}"),
            Node(n, lower, upper) => write!(f, "({n},{lower},{upper})"),
        }
    }
}
