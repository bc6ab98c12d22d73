//! From doubles to the integers of a family and back, as `lnc_grid.h` does it (which says more): a coordinate is the multiple of the step, a power of two,
//! nearest to it, ties to even, less the origin. The way back is exact.
use std::collections::HashMap;

/// Why a point, or a box, has no place on a grid.
#[derive(Clone, Copy, Debug, PartialEq, Eq)]
pub enum Refused {
    /// A coordinate is NaN or infinite.
    NotFinite,
    /// Out of range.
    Range,
}

/// A grid of `D` coordinates with its points.
#[derive(Clone, Debug)]
pub struct Grid<const D: usize> {
    power: i32,
    low: i64,
    high: i64,
    origin: [i64; D],
    points: Vec<[i64; D]>,
    given: Vec<[f64; D]>,
    first: Vec<usize>,
    places: HashMap<[i64; D], usize>,
    equal: usize,
    merged: usize,
    greatest: f64,
}

const MOST: i64 = 1 << 53;

/// Returns value * 2^power, to the nearest integer, ties to even; past 2^62 it is 2^62.
fn scaled(value: f64, power: i32) -> i64 {
    let bits = value.to_bits();
    let biased = (bits >> 52 & 2047) as i32;
    let rest = bits & ((1 << 52) - 1);
    let mantissa = if biased == 0 { rest } else { rest | 1 << 52 };
    let shift = biased.max(1) - 1075 + power;
    let whole = match shift {
        10.. => (mantissa != 0) as u64 * (1 << 62),
        0..=9 => mantissa << shift,
        -53..=-1 => {
            let (down, rest, half) = (mantissa >> -shift, mantissa & ((1 << -shift) - 1), 1u64 << (-shift - 1));
            down + (rest > half || (rest == half && down & 1 == 1)) as u64
        }
        _ => 0,
    };
    if value.is_sign_negative() { -(whole as i64) } else { whole as i64 }
}

/// Returns 2^power, for a power from -1074 to 1023.
fn two_to(power: i32) -> f64 {
    f64::from_bits(if power < -1022 { 1 << (power + 1074) } else { ((power + 1023) as u64) << 52 })
}

/// Returns whole * 2^-power, exactly for up to 2^53; infinite past the largest double.
fn unscaled(whole: i64, power: i32) -> f64 {
    // two factors, since 2^1074 is none; the first product is exact, and so is the second where it is a double
    let half = -power / 2;
    whole as f64 * two_to(half) * two_to(-power - half)
}

impl<const D: usize> Grid<D> {
    /// Makes the grid over the bounding box of points, with the points; in range are coordinates from `low` to `high`. Returns the number of a point that
    /// isn't finite; the last number where a range has no room for the box.
    pub fn new(points: &[[f64; D]], low: i64, high: i64) -> Result<Self, (Refused, usize)> {
        let (mut from, mut to) = ([0.0; D], [0.0; D]);
        for (k, point) in points.iter().enumerate() {
            for i in 0..D {
                if !point[i].is_finite() {
                    return Err((Refused::NotFinite, k));
                }
                from[i] = if k == 0 { point[i] } else { point[i].min(from[i]) };
                to[i] = if k == 0 { point[i] } else { point[i].max(to[i]) };
            }
        }
        let mut grid = Self::over(from, to, low, high).map_err(|refused| (refused, points.len()))?;
        for (k, point) in points.iter().enumerate() {
            grid.put(*point).map_err(|refused| (refused, k))?;
        }
        Ok(grid)
    }

    /// Makes the grid with the smallest step over a box. Take one that later points are in too.
    pub fn over(from: [f64; D], to: [f64; D], low: i64, high: i64) -> Result<Self, Refused> {
        if from.iter().chain(&to).any(|c| !c.is_finite()) {
            return Err(Refused::NotFinite);
        }
        let (mut low, mut high) = (low.max(-(1 << 62)), high.min(1 << 62));
        if low > high || (0..D).any(|i| from[i] > to[i]) {
            return Err(Refused::Range);
        }
        if high / 2 - low / 2 > MOST / 2 {
            let middle = low / 2 + high / 2;
            (low, high) = (middle - MOST / 2, middle + MOST / 2);
        }
        let (points, given, first, places) = (Vec::new(), Vec::new(), Vec::new(), HashMap::new());
        let mut grid = Grid { power: 0, low, high, origin: [0; D], points, given, first, places, equal: 0, merged: 0, greatest: 0.0 };
        for power in (-1023..=1074).rev() {
            grid.power = power;
            let origins: Vec<i64> = (0..D).map_while(|i| grid.middle(from[i], to[i])).collect();
            if let Ok(origin) = origins.try_into() {
                grid.origin = origin;
                return Ok(grid);
            }
        }
        Err(Refused::Range)
    }

    /// Returns the origin of a coordinate, `None` where the box doesn't fit: the box in the middle of the range, but the whole range within 2^53 steps.
    fn middle(&self, from: f64, to: f64) -> Option<i64> {
        let (first, last) = (scaled(from, self.power), scaled(to, self.power));
        let finite = || unscaled(first, self.power).is_finite() && unscaled(last, self.power).is_finite();
        if first < -MOST || last > MOST || last - first > self.high - self.low || !finite() {
            return None;
        }
        let (least, greatest) = (last - self.high, first - self.low);
        let middle = (least + (greatest - least) / 2).max(-MOST - self.low).min(MOST - self.high);
        (least <= middle && middle <= greatest).then_some(middle)
    }

    /// Returns the coordinates of a point, whether or not it is one of the grid's.
    pub fn snap(&self, point: [f64; D]) -> Result<[i64; D], Refused> {
        if point.iter().any(|c| !c.is_finite()) {
            return Err(Refused::NotFinite);
        }
        let mut coordinates = [0; D];
        for i in 0..D {
            let whole = scaled(point[i], self.power);
            coordinates[i] = whole - self.origin[i];
            if !(self.low..=self.high).contains(&coordinates[i]) || !unscaled(whole, self.power).is_finite() {
                return Err(Refused::Range);
            }
        }
        Ok(coordinates)
    }

    /// Returns the point that coordinates in range are of, exactly.
    pub fn back(&self, coordinates: [i64; D]) -> [f64; D] {
        std::array::from_fn(|i| unscaled(self.origin[i] + coordinates[i], self.power))
    }

    /// Returns a weight, whose unit is a squared length, in squared steps.
    pub fn weight(&self, weight: f64, low: i64, high: i64) -> Result<i64, Refused> {
        if !weight.is_finite() {
            return Err(Refused::NotFinite);
        }
        Some(scaled(weight, 2 * self.power)).filter(|whole| (low..=high).contains(whole)).ok_or(Refused::Range)
    }

    /// Returns the first point at these coordinates.
    pub fn find(&self, coordinates: [i64; D]) -> Option<usize> {
        self.places.get(&coordinates).copied()
    }

    /// Takes a point, whether or not another is at its place, and returns its number.
    pub fn put(&mut self, point: [f64; D]) -> Result<usize, Refused> {
        let coordinates = self.snap(point)?;
        let (back, number) = (self.back(coordinates), self.points.len());
        for i in 0..D {
            self.greatest = self.greatest.max((point[i] - back[i]).abs());
        }
        let first = *self.places.entry(coordinates).or_insert(number);
        self.points.push(coordinates);
        self.given.push(point);
        self.first.push(first);
        self.equal += usize::from(first != number);
        self.merged += usize::from(self.given[first] != point);
        Ok(number)
    }

    /// Takes a later point where none is yet. Returns the number of the point that is then there, and whether it is a new one.
    pub fn add(&mut self, point: [f64; D]) -> Result<(usize, bool), Refused> {
        match self.find(self.snap(point)?) {
            Some(there) => Ok((there, false)),
            None => Ok((self.put(point)?, true)),
        }
    }

    /// Returns the coordinates of each point.
    pub fn points(&self) -> &[[i64; D]] {
        &self.points
    }

    /// Returns of each point the first at its place: itself, or an earlier one.
    pub fn first(&self) -> &[usize] {
        &self.first
    }

    /// Returns how many points are at the place of an earlier one.
    pub fn equal(&self) -> usize {
        self.equal
    }

    /// Returns how many of the equal ones weren't equal in doubles.
    pub fn merged(&self) -> usize {
        self.merged
    }

    /// Returns the largest move of a coordinate, at most half a step.
    pub fn largest_move(&self) -> f64 {
        self.greatest
    }

    /// Returns k, where a step is 2^-k.
    pub fn power(&self) -> i32 {
        self.power
    }

    /// Returns the origin of each coordinate, in steps.
    pub fn origin(&self) -> [i64; D] {
        self.origin
    }
}
