//! Sums over the pairs of each bin.
use super::lookup::Lookup;

pub trait Sum {
    /// The sum of one offset's cells.
    type Cells;
    fn add(&mut self, state: usize, value: f64, weight: f64);
    fn fresh(&self) -> Self::Cells;
    fn add_cell(&self, cells: &mut Self::Cells, value: f64, weight: f64);
    fn merge(&mut self, state: usize, cells: &Self::Cells);
    fn add_to(&self, pack: &mut [f64]);
}

/// Total and weight of each state, side by side.
pub struct Means(Vec<[f64; 2]>);

impl Means {
    pub fn new(states: usize) -> Self {
        Means(vec![[0.0; 2]; states])
    }
}

impl Sum for Means {
    type Cells = [f64; 2];

    #[inline(always)]
    fn add(&mut self, state: usize, value: f64, weight: f64) {
        if let Some(s) = self.0.get_mut(state) {
            s[0] += value * weight;
            s[1] += weight;
        }
    }

    fn fresh(&self) -> [f64; 2] {
        [0.0; 2]
    }

    #[inline(always)]
    fn add_cell(&self, cells: &mut [f64; 2], value: f64, weight: f64) {
        cells[0] += value * weight;
        cells[1] += weight;
    }

    fn merge(&mut self, state: usize, cells: &[f64; 2]) {
        if let Some(s) = self.0.get_mut(state) {
            s[0] += cells[0];
            s[1] += cells[1];
        }
    }

    fn add_to(&self, pack: &mut [f64]) {
        let n = self.0.len();
        let (totals, weights) = pack.split_at_mut(n);
        for (s, (total, weight)) in self.0.iter().zip(totals.iter_mut().zip(weights)) {
            *total += s[0];
            *weight += s[1];
        }
    }
}

/// Weights by value bin, number e of state s at e times the states plus s.
pub struct Histogram<L> {
    value: L,
    states: usize,
    bins: usize,
    weights: Vec<f64>,
}

impl<L: Lookup> Histogram<L> {
    pub fn new(states: usize, value: L, bins: usize) -> Self {
        let weights = vec![0.0; states * bins];
        Histogram {
            value,
            states,
            bins,
            weights,
        }
    }
}

impl<L: Lookup> Sum for Histogram<L> {
    type Cells = [f64; 256];

    #[inline(always)]
    fn add(&mut self, state: usize, value: f64, weight: f64) {
        if state < self.states && self.value.inside(value) {
            let bin = self.value.bin(value);
            if bin < self.bins {
                self.weights[bin * self.states + state] += weight;
            }
        }
    }

    fn fresh(&self) -> [f64; 256] {
        [0.0; 256]
    }

    #[inline(always)]
    fn add_cell(&self, cells: &mut [f64; 256], value: f64, weight: f64) {
        if self.value.inside(value)
            && let Some(sum) = cells.get_mut(self.value.bin(value))
        {
            *sum += weight;
        }
    }

    fn merge(&mut self, state: usize, cells: &[f64; 256]) {
        if state < self.states {
            for (bin, sum) in cells[..self.bins].iter().enumerate() {
                self.weights[bin * self.states + state] += sum;
            }
        }
    }

    fn add_to(&self, pack: &mut [f64]) {
        for (total, sum) in pack.iter_mut().zip(&self.weights) {
            *total += sum;
        }
    }
}
