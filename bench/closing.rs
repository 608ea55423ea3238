//! The closings of a matrix of bounds, written by hand: the same loops over the same bounds.

pub trait Bound: Copy {
    fn at_most(c: i64) -> Self;
    fn less_than(c: i64) -> Self;
    fn sum(self, other: Self) -> Self;
    fn tighter(self, other: Self) -> Self;
    fn covers(self, other: Self) -> bool;
    fn admits_zero(self) -> bool;
    fn last_tick(self) -> Option<i64>;
}

const NONE: i64 = i64::MAX;

#[derive(Clone, Copy)]
pub struct Whole(i64);

impl Bound for Whole {
    fn at_most(c: i64) -> Whole {
        Whole(c)
    }
    fn less_than(c: i64) -> Whole {
        Whole(c - 1)
    }
    fn sum(self, other: Whole) -> Whole {
        if self.0 == NONE || other.0 == NONE { Whole(NONE) } else { Whole(self.0 + other.0) }
    }
    fn tighter(self, other: Whole) -> Whole {
        Whole(self.0.min(other.0))
    }
    fn covers(self, other: Whole) -> bool {
        other.0 <= self.0
    }
    fn admits_zero(self) -> bool {
        self.0 >= 0
    }
    fn last_tick(self) -> Option<i64> {
        (self.0 != NONE).then_some(self.0)
    }
}

#[derive(Clone, Copy)]
pub struct Split {
    ticks: i64,
    strict: bool,
}

impl Bound for Split {
    fn at_most(c: i64) -> Split {
        Split { ticks: c, strict: false }
    }
    fn less_than(c: i64) -> Split {
        Split { ticks: c, strict: true }
    }
    fn sum(self, other: Split) -> Split {
        if self.ticks == NONE || other.ticks == NONE {
            Split { ticks: NONE, strict: false }
        } else {
            Split { ticks: self.ticks + other.ticks, strict: self.strict | other.strict }
        }
    }
    fn tighter(self, other: Split) -> Split {
        if (self.ticks < other.ticks) | ((self.ticks == other.ticks) & self.strict) { self } else { other }
    }
    fn covers(self, other: Split) -> bool {
        self.ticks == NONE || other.ticks < self.ticks || (other.ticks == self.ticks && (other.strict | !self.strict))
    }
    fn admits_zero(self) -> bool {
        self.ticks > 0 || (self.ticks == 0 && !self.strict)
    }
    fn last_tick(self) -> Option<i64> {
        (self.ticks != NONE).then_some(self.ticks - i64::from(self.strict))
    }
}

fn zeros<T: Bound>(part: &[T], side: usize) -> bool {
    (0..side).all(|i| part[i * side + i].admits_zero())
}

#[inline(always)]
fn relax<T: Bound>(part: &mut [T], side: usize, k: usize) -> bool {
    let floor = T::less_than(-1_000_000_000_000);
    for i in 0..side {
        if i == k {
            continue;
        }
        let l = part[i * side + k];
        for j in 0..side {
            let sum = l.sum(part[k * side + j]);
            if !sum.covers(floor) {
                return false;
            }
            part[i * side + j] = part[i * side + j].tighter(sum);
        }
    }
    true
}

pub fn close<T: Bound>(part: &mut [T], side: usize) -> bool {
    if !zeros(part, side) {
        return false;
    }
    for k in 0..side {
        if !relax(part, side, k) || !zeros(part, side) {
            return false;
        }
    }
    true
}

#[inline(always)]
fn relax_column<T: Bound>(part: &mut [T], side: usize, k: usize, b: usize) -> bool {
    let floor = T::less_than(-1_000_000_000_000);
    let r = part[k * side + b];
    for i in 0..side {
        let sum = part[i * side + k].sum(r);
        if !sum.covers(floor) {
            return false;
        }
        part[i * side + b] = part[i * side + b].tighter(sum);
    }
    true
}

#[inline(always)]
fn close_over<T: Bound>(part: &mut [T], side: usize, b: usize) -> bool {
    part[b * side + b].admits_zero() && relax(part, side, b) && zeros(part, side)
}

/// Closes a matrix that is closed but for column b.
pub fn close_column<T: Bound>(part: &mut [T], side: usize, b: usize) -> bool {
    for k in 0..side {
        if k != b && !relax_column(part, side, k, b) {
            return false;
        }
    }
    close_over(part, side, b)
}

/// Tightens one bound of a closed matrix, and closes it again.
pub fn cut<T: Bound>(part: &mut [T], side: usize, i: usize, j: usize, x: T) -> bool {
    if x.covers(part[i * side + j]) {
        return true;
    }
    part[i * side + j] = x;
    relax_column(part, side, i, j) && close_over(part, side, j)
}

fn spread_out<T: Bound>(part: &mut [T], side: usize) {
    for (i, row) in part.chunks_exact_mut(side).enumerate() {
        for (j, bound) in row.iter_mut().enumerate() {
            let far = ((i * 17 + j * 29) % 40) as i64;
            *bound = T::at_most(if i == j { 0 } else { 3 + far });
        }
    }
}

#[inline(never)]
pub fn rounds<T: Bound>(side: usize, rounds: u32) -> u64 {
    let mut row = [T::at_most(0); 100];
    let part = &mut row[..side * side];
    let mut closed = 0;
    for _ in 0..rounds {
        spread_out(part, side);
        closed += u64::from(close(std::hint::black_box(&mut *part), side));
    }
    closed
}
