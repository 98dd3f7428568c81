//! Lookups. `bin` of a value inside the ends; `usize::MAX` stands for none.
use std::hint::select_unpredictable;

pub trait Lookup {
    /// Whether the value can have a bin.
    fn inside(&self, value: f64) -> bool;
    fn bin(&self, value: f64) -> usize;
}

pub struct Regular {
    min: f64,
    max: f64,
    size: f64,
    n: usize,
}

impl Regular {
    pub fn new(min: f64, max: f64, n: usize) -> Self {
        let size = (max - min) / n as f64;
        Regular { min, max, size, n }
    }
}

impl Lookup for Regular {
    #[inline(always)]
    fn inside(&self, value: f64) -> bool {
        // a NaN is inside, and has bin 0
        let (below, above) = (value < self.min, value >= self.max);
        !below & !above
    }

    #[inline(always)]
    fn bin(&self, value: f64) -> usize {
        let bin = ((value - self.min) / self.size) as usize;
        if bin < self.n { bin } else { usize::MAX }
    }
}

/// A float's place in the total order.
fn key(x: f64) -> u64 {
    let bits = x.to_bits();
    bits ^ ((((bits as i64) >> 63) as u64) | (1 << 63))
}

/// Irregular edges by a search without branches.
pub struct Searched {
    keys: Vec<u64>,
    first: f64,
    last: f64,
}

impl Searched {
    pub fn new(list: &[f64]) -> Self {
        Searched {
            keys: list.iter().map(|x| key(*x)).collect(),
            first: list[0],
            last: list[list.len() - 1],
        }
    }

    #[inline(always)]
    fn search(&self, key: u64) -> usize {
        if key < self.keys[0] {
            return usize::MAX;
        }
        let (mut low, mut len) = (0, self.keys.len());
        while len > 1 {
            let half = len / 2;
            let mid = low + half;
            low = select_unpredictable(self.keys[mid] <= key, mid, low);
            len -= half;
        }
        low
    }
}

impl Lookup for Searched {
    #[inline(always)]
    fn inside(&self, value: f64) -> bool {
        (self.first <= value) & (value < self.last)
    }

    #[inline(always)]
    fn bin(&self, value: f64) -> usize {
        self.search(key(value))
    }
}

/// Irregular edges by a table of hints, linear in the value; a wrong hint is searched.
pub struct Hinted {
    searched: Searched,
    keys: [u64; 258],
    hints: [u8; 4096],
    scale: f64,
}

impl Hinted {
    pub fn new(list: &[f64]) -> Self {
        let searched = Searched::new(list);
        let mut keys = [u64::MAX; 258];
        keys[..list.len()].copy_from_slice(&searched.keys);
        let scale = 4094.0 / (searched.last - searched.first);
        let mut hints = [0; 4096];
        let mut bin = 0;
        for (q, hint) in hints.iter_mut().enumerate().skip(1) {
            let low = searched.first + (q - 1) as f64 / scale;
            while bin + 2 < list.len() && list[bin + 1] <= low {
                bin += 1;
            }
            *hint = bin as u8;
        }
        Hinted {
            searched,
            keys,
            hints,
            scale,
        }
    }
}

impl Lookup for Hinted {
    #[inline(always)]
    fn inside(&self, value: f64) -> bool {
        self.searched.inside(value)
    }

    #[inline(always)]
    fn bin(&self, value: f64) -> usize {
        let key = key(value);
        let place = (value - self.searched.first) * self.scale + 4503599627370496.0;
        let low = self.hints[(place.to_bits() & 4095) as usize] as usize;
        let bin = low + (self.keys[low + 1] <= key) as usize;
        if self.keys[bin] <= key && key < self.keys[bin + 1] {
            return bin;
        }
        self.searched.search(key)
    }
}
