//! Luma and chroma of one row: RULES 5.1, 5.2, 6.1, 6.2, 6.3, 6.4.

use crate::curves::{Tables, tables};
use crate::matrix::{Weights, weights};
use crate::settings::{Settings, YuvRange, YuvSourceChannels};

/// The pixels of a row, `step` bytes from each to the next. The carried row has a step of 3.
#[derive(Clone, Copy)]
pub struct Row<'a> {
    bytes: &'a [u8],
    step: usize,
    channels: YuvSourceChannels,
}

impl<'a> Row<'a> {
    pub fn new(bytes: &'a [u8], step: usize, channels: YuvSourceChannels) -> Row<'a> {
        Row {
            bytes,
            step,
            channels,
        }
    }

    /// r, g, b of a pixel.
    fn rgb(&self, pixel: usize) -> [i64; 3] {
        let first = pixel * self.step;
        self.channels
            .offsets()
            .map(|offset| i64::from(self.bytes[first + offset]))
    }
}

/// What the rows of a call share.
pub struct Rules {
    weights: Weights,
    range: YuvRange,
    tables: &'static Tables,
}

impl Rules {
    pub fn new(settings: &Settings) -> Rules {
        Rules {
            weights: weights(settings.matrix, settings.range),
            range: settings.range,
            tables: tables(settings.transfer, settings.rounding),
        }
    }

    /// The luma row: one byte for each of its pixels.
    pub fn luma(&self, row: Row, y: &mut [u8]) {
        for (p, byte) in y.iter_mut().enumerate() {
            *byte = luma(&self.weights, self.range, row.rgb(p));
        }
    }

    /// The chroma row of row 2k in 4:2:0, from that row and the one below it.
    pub fn chroma_420(&self, w: usize, this: Row, below: Row, u: &mut [u8], v: &mut [u8]) {
        for j in 0..u.len().min(v.len()) {
            let p = 2 * j;
            let corrected = if p + 1 < w {
                self.interpolated([
                    (9, this.rgb(p)),
                    (3, this.rgb(p + 1)),
                    (3, below.rgb(p)),
                    (1, below.rgb(p + 1)),
                ])
            } else {
                self.interpolated([(12, this.rgb(p)), (4, below.rgb(p))])
            };
            (u[j], v[j]) = chroma(&self.weights, self.range, corrected);
        }
    }

    /// The chroma row of a row in 4:2:2.
    pub fn chroma_422(&self, w: usize, this: Row, u: &mut [u8], v: &mut [u8]) {
        for j in 0..u.len().min(v.len()) {
            let p = 2 * j;
            let corrected = if p + 1 < w {
                self.interpolated([(12, this.rgb(p)), (4, this.rgb(p + 1))])
            } else {
                // RULES 6.4: its own r, g, b, no tables.
                this.rgb(p)
            };
            (u[j], v[j]) = chroma(&self.weights, self.range, corrected);
        }
    }

    /// RULES 6.2.
    fn interpolated<const N: usize>(&self, pixels: [(u64, [i64; 3]); N]) -> [i64; 3] {
        [0, 1, 2].map(|channel| {
            let linear = |rgb: [i64; 3]| u64::from(self.tables.linear[rgb[channel] as usize]);
            let index = interpolate(pixels.map(|(weight, rgb)| (weight, linear(rgb))));
            i64::from(self.tables.gamma[index as usize])
        })
    }
}

/// Weights and linear values: the sum of their products, plus 8, divided by 16 rounded down.
pub fn interpolate<const N: usize>(terms: [(u64, u64); N]) -> u64 {
    let sum: u64 = terms.iter().map(|(weight, linear)| weight * linear).sum();
    (sum + 8) / 16
}

/// RULES 5.1. For every accepted matrix that is a byte.
pub fn luma(weights: &Weights, range: YuvRange, rgb: [i64; 3]) -> u8 {
    let most = range.bias_y() + i64::from(range.range_y());
    weighted(weights.y, rgb, range.bias_y()).min(most) as u8
}

/// RULES 5.2.
pub fn chroma(weights: &Weights, range: YuvRange, rgb: [i64; 3]) -> (u8, u8) {
    let least = range.bias_y();
    let most = least + i64::from(range.range_uv());
    let held = |triple| weighted(triple, rgb, 128).clamp(least, most) as u8;
    (held(weights.cb), held(weights.cr))
}

/// `div_euclid`: the division rounds down, below zero too (RULES 1.1).
fn weighted(triple: [i64; 3], rgb: [i64; 3], bias: i64) -> i64 {
    let sum = rgb[0] * triple[0] + rgb[1] * triple[1] + rgb[2] * triple[2];
    (sum + bias * 8_192 + 4_095).div_euclid(8_192)
}
