//! Places: names of positions in a text.
use crate::profile::*;
use crate::tokens::*;
use std::cmp::Ordering;

#[derive(Clone, Copy, PartialEq, Eq, Debug, Hash)]
pub enum Place {
    CPos(i32),
    /// The tokens before and behind the position, and which of such positions it is.
    Pos(Seq, Seq, i32),
}

/// The order of counts: 0, 1, -1, 2, -2, ..
pub fn count_order(count: i32) -> u64 {
    (count as i64).unsigned_abs() << 1 | (count < 0) as u64
}

impl Place {
    pub fn cost(&self, prices: &Prices) -> u64 {
        match *self {
            Place::CPos(0) | Place::CPos(-1) => EDGE_PLACE,
            Place::CPos(_) => COUNTED_PLACE,
            Place::Pos(left, right, count) => {
                let steps = (count as i64).unsigned_abs().saturating_sub(1);
                let backwards = if count < 0 { prices.backwards } else { 0 };
                POS + seq_cost(left, prices) + seq_cost(right, prices) + STEP * steps + backwards
            }
        }
    }

    pub fn compare(&self, other: &Place) -> Ordering {
        match (*self, *other) {
            (Place::CPos(a), Place::CPos(b)) => count_order(a).cmp(&count_order(b)),
            (Place::CPos(_), _) => Ordering::Less,
            (_, Place::CPos(_)) => Ordering::Greater,
            (Place::Pos(a, b, c), Place::Pos(d, e, f)) => (a, b, count_order(c)).cmp(&(d, e, count_order(f))),
        }
    }
}

/// The position that a place names in a text.
pub fn place_value(place: &Place, text: &[char]) -> Option<usize> {
    let n = text.len();
    match *place {
        Place::CPos(k) if k >= 0 => (k as usize <= n).then_some(k as usize),
        Place::CPos(k) => usize::try_from(n as i64 + 1 + k as i64).ok(),
        Place::Pos(_, _, 0) => None,
        Place::Pos(left, right, count) => {
            let mut positions = (0..=n).filter(|&k| ends_at(left, text, k) && begins_at(right, text, k));
            let nth = (count as i64).unsigned_abs() as usize - 1;
            if count > 0 {
                positions.nth(nth)
            } else {
                positions.nth_back(nth)
            }
        }
    }
}
