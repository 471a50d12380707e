//! Ids of interval tree clocks, as boxed enums: the pens of the peer.

use std::fmt;

/// No node is deeper.
const DEEPEST: u32 = 12;

/// An id: 0, 1 or a pair. It may make marks at each place where it is 1.
#[derive(Clone, Debug, PartialEq, Eq)]
pub enum Id {
    Zero,
    One,
    Pair(Box<Id>, Box<Id>),
}

use Id::{One, Pair, Zero};

fn pair(lower: Id, upper: Id) -> Id {
    Pair(Box::new(lower), Box::new(upper))
}

/// (0,0) is 0 and (1,1) is 1.
fn norm(lower: Id, upper: Id) -> Id {
    match (&lower, &upper) {
        (Zero, Zero) => Zero,
        (One, One) => One,
        _ => pair(lower, upper),
    }
}

impl Id {
    /// How many nodes, leaves included.
    pub fn size(&self) -> usize {
        match self {
            Zero | One => 1,
            Pair(lower, upper) => 1 + lower.size() + upper.size(),
        }
    }

    /// Two ids with no place in common and together the places of this one.
    /// `None` where it is 0, or a half would be too deep.
    pub fn split(&self) -> Option<(Id, Id)> {
        self.split_at(0)
    }

    fn split_at(&self, depth: u32) -> Option<(Id, Id)> {
        match self {
            Zero => None,
            One if depth == DEEPEST => None,
            One => Some((pair(One, Zero), pair(Zero, One))),
            Pair(lower, upper) => match (&**lower, &**upper) {
                (Zero, id) => {
                    let (first, second) = id.split_at(depth + 1)?;
                    Some((pair(Zero, first), pair(Zero, second)))
                }
                (id, Zero) => {
                    let (first, second) = id.split_at(depth + 1)?;
                    Some((pair(first, Zero), pair(second, Zero)))
                }
                (lower, upper) => Some((pair(lower.clone(), Zero), pair(Zero, upper.clone()))),
            },
        }
    }

    /// The id with the places of both. `None` where some place is in both.
    pub fn sum(&self, other: &Id) -> Option<Id> {
        match (self, other) {
            (Zero, id) | (id, Zero) => Some(id.clone()),
            (One, _) | (_, One) => None,
            (Pair(l1, u1), Pair(l2, u2)) => Some(norm(l1.sum(l2)?, u1.sum(u2)?)),
        }
    }
}

impl fmt::Display for Id {
    fn fmt(&self, f: &mut fmt::Formatter) -> fmt::Result {
        match self {
            Zero => f.write_str("0"),
            One => f.write_str("1"),
            Pair(lower, upper) => write!(f, "({lower},{upper})"),
        }
    }
}
