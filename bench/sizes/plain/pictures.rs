//! The samples of a picture from its coefficients, all at once.

use crate::numbers::{Range, Rows, drawn, hashed_row};
use crate::wave::{band_sizes, join};

pub struct Picture {
    /// Mono, 4:2:2, 4:4:4, or 4:4:4 with the colour transform.
    pub kind: usize,
    pub width: usize,
    pub height: usize,
    pub nlx: usize,
    pub nly: usize,
    pub depth: u32,
    pub bw: u32,
    pub fq: u32,
}

impl Picture {
    fn components(&self) -> usize {
        if self.kind == 0 { 1 } else { 3 }
    }

    /// The component before its colour is turned back.
    fn plane(&self, component: usize, range: Range) -> Rows {
        let width = if self.kind == 1 && component > 0 { self.width.div_ceil(2) } else { self.width };
        let sizes = band_sizes(width, self.height, self.nlx, self.nly);
        let bands: Vec<Rows> = sizes
            .iter()
            .enumerate()
            .map(|(kind, &(width, height))| drawn(kind * self.components() + component, width, height, range))
            .map(|band| band.iter().map(|row| row.iter().map(|number| number << self.fq).collect()).collect())
            .collect();
        join(&bands, self.nlx, self.nly)
    }

    fn sample(&self, number: i64) -> i64 {
        let shift = self.bw - self.depth;
        let sample = (number + (1 << (self.bw - 1)) + (1 << (shift - 1))) >> shift;
        sample.clamp(0, (1 << self.depth) - 1)
    }

    /// The hash of the samples, line after line and in each component after component.
    pub fn hash(&self, range: Range) -> u64 {
        let mut planes: Vec<Rows> = (0..self.components()).map(|component| self.plane(component, range)).collect();
        if self.kind == 3 {
            planes = turned_back(&planes);
        }
        let mut hash = 0;
        for line in 0..self.height {
            for plane in &planes {
                let samples: Vec<i64> = plane[line].iter().map(|&number| self.sample(number)).collect();
                hash = hashed_row(hash, &samples);
            }
        }
        hash
    }
}

/// Red, green and blue.
fn turned_back(planes: &[Rows]) -> Vec<Rows> {
    let mut colours = planes.to_vec();
    for line in 0..planes[0].len() {
        for column in 0..planes[0][line].len() {
            let (y, u, v) = (planes[0][line][column], planes[1][line][column], planes[2][line][column]);
            let green = y - (u + v).div_euclid(4);
            colours[0][line][column] = v + green;
            colours[1][line][column] = green;
            colours[2][line][column] = u + green;
        }
    }
    colours
}
