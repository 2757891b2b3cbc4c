//! How far the nine weights of a Custom pair are from the exact ones (RULES 4.6): a search for the
//! largest distances, with a fixed seed.
//!
//!     target/model/exact_weights [ROUNDS]
//!
//! Weights are those of the model, so the steps of RULES 4.4 and 4.5. Exact coefficients are taken
//! over the fractions that kr and kb are, in whole numbers of 128 bits; of a kr or kb below 2^-66
//! only 90 binary places count, which moves a distance by less than 2^-70. 64-bit floating point
//! only picks the candidates that are worked out.

use model::matrix::weights;
use model::{YuvRange, YuvStandardMatrix};

const NAMES: [&str; 9] = [
    "yr", "yg", "yb", "cb_r", "cb_g", "cb_b", "cr_r", "cr_g", "cr_b",
];
const RANGES: [YuvRange; 2] = [YuvRange::Limited, YuvRange::Full];
const SEED: u64 = 4_006;

/// splitmix64.
struct Random(u64);

impl Random {
    fn next(&mut self) -> u64 {
        self.0 = self.0.wrapping_add(0x9e37_79b9_7f4a_7c15);
        let mut z = self.0;
        z = (z ^ (z >> 30)).wrapping_mul(0xbf58_476d_1ce4_e5b9);
        z = (z ^ (z >> 27)).wrapping_mul(0x94d0_49bb_1331_11eb);
        z ^ (z >> 31)
    }

    fn below(&mut self, n: u64) -> u64 {
        self.next() % n
    }

    /// From 0 to 1.
    fn unit(&mut self) -> f64 {
        (self.next() >> 11) as f64 / (1u64 << 53) as f64
    }

    fn sign(&mut self) -> f64 {
        if self.below(2) == 0 { -1.0 } else { 1.0 }
    }

    /// A number from 0 to 1/2: spread evenly, over all bits, over those from 2^-15 on, or next to 1/2.
    fn number(&mut self) -> f32 {
        match self.below(4) {
            0 => (self.unit() * 0.5) as f32,
            1 => f32::from_bits(self.below(0x3f00_0001) as u32),
            2 => f32::from_bits(0x3800_0000 + self.below(0x0700_0001) as u32),
            _ => (0.5 - self.unit().powi(8) * 0.5) as f32,
        }
    }
}

/// 2^90 k, a whole number; past the 90th place it is cut.
fn places(k: f32) -> i128 {
    let bits = k.to_bits();
    let (field, digits) = (bits >> 23, i128::from(bits & 0x7f_ffff));
    let (digits, field) = if field == 0 {
        (digits, 1)
    } else {
        (digits | 0x80_0000, field)
    };
    // digits times 2^(field - 150)
    let shift = field as i32 - 60;
    if shift >= 0 {
        digits << shift
    } else {
        digits.checked_shr(-shift as u32).unwrap_or(0)
    }
}

/// How far `weight` is from weight `index` of the pair, exactly: a numerator and a denominator.
fn distance(kr: f32, kb: f32, range: YuvRange, index: usize, weight: i64) -> (i128, i128) {
    let one = 1i128 << 90;
    let (r, b) = (places(kr), places(kb));
    let g = one - r - b;
    let (ry, ruv) = (i128::from(range.range_y()), i128::from(range.range_uv()));
    let (top, bottom) = match index {
        0 => (ry * r, one),
        1 => (ry * g, one),
        2 => (ry * b, one),
        3 => (-ruv * r, 2 * (one - b)),
        4 => (-ruv * g, 2 * (one - b)),
        5 | 6 => (ruv, 2),
        7 => (-ruv * g, 2 * (one - r)),
        _ => (-ruv * b, 2 * (one - r)),
    };
    (
        (i128::from(weight) * 255 * bottom - 8_192 * top).abs(),
        255 * bottom,
    )
}

/// The nine exact coefficients times 8,192, about.
fn about(kr: f32, kb: f32, range: YuvRange) -> [f64; 9] {
    let (r, b) = (f64::from(kr), f64::from(kb));
    let g = 1.0 - r - b;
    let y = 8_192.0 / 255.0 * f64::from(range.range_y());
    let uv = 4_096.0 / 255.0 * f64::from(range.range_uv());
    let (cb, cr) = (uv / (1.0 - b), uv / (1.0 - r));
    [
        y * r,
        y * g,
        y * b,
        -cb * r,
        -cb * g,
        uv,
        uv,
        -cr * g,
        -cr * b,
    ]
}

#[derive(Clone, Copy)]
struct Best {
    distance: f64,
    pair: (f32, f32),
}

struct Search {
    random: Random,
    pairs: u64,
    best: [[Best; 9]; 2],
    /// Least and most sum of each triple.
    sums: [[(i64, i64); 3]; 2],
}

impl Search {
    fn consider(&mut self, kr: f32, kb: f32) {
        let accepted = 0.0..=0.5;
        if !accepted.contains(&kr) || !accepted.contains(&kb) {
            return;
        }
        self.pairs += 1;
        for (range, best) in RANGES.into_iter().zip(&mut self.best) {
            let w = weights(YuvStandardMatrix::Custom(kr, kb), range);
            let nine = [w.y, w.cb, w.cr];
            let near = about(kr, kb, range);
            for (index, best) in best.iter_mut().enumerate() {
                let weight = nine[index / 3][index % 3];
                if (weight as f64 - near[index]).abs() > best.distance - 1e-9 {
                    let (top, bottom) = distance(kr, kb, range, index, weight);
                    let distance = top as f64 / bottom as f64;
                    if distance > best.distance {
                        *best = Best {
                            distance,
                            pair: (kr, kb),
                        };
                    }
                }
            }
            let sums = &mut self.sums[usize::from(range == YuvRange::Full)];
            for (triple, sum) in nine.iter().zip(sums) {
                let total = triple.iter().sum();
                *sum = (sum.0.min(total), sum.1.max(total));
            }
        }
    }

    /// All pairs of numbers that are special: ends, powers of two, denormal numbers, halves between
    /// weights, and the neighbours of each.
    fn special(&mut self) {
        let mut list = vec![
            0.0f32,
            0.5,
            f32::MIN_POSITIVE,
            f32::from_bits(1),
            f32::from_bits(0x7f_ffff),
        ];
        list.extend((1..=30).map(|power| 0.5f32.powi(power)));
        list.extend((0..40).map(|w| ((2 * w * 103 + 1) as f32) / 16_384.0));
        list.extend([
            1.0 / 3.0,
            0.25,
            0.299,
            0.114,
            0.2126,
            0.0722,
            0.2627,
            0.0593,
            0.212,
            0.087,
            0.3,
            0.11,
        ]);
        let list: Vec<f32> = list
            .iter()
            .flat_map(|k| {
                (-6i32..=6).map(|step| f32::from_bits(k.to_bits().saturating_add_signed(step)))
            })
            .collect();
        for &kr in &list {
            for &kb in &list {
                self.consider(kr, kb);
            }
        }
    }

    /// A pair one of whose exact coefficients is next to a half between two weights.
    fn aimed(&mut self) {
        let range = RANGES[self.random.below(2) as usize];
        let y = 8_192.0 / 255.0 * f64::from(range.range_y());
        let uv = 4_096.0 / 255.0 * f64::from(range.range_uv());
        let luma = (self.random.below(8_192) as f64 + 0.5) / y;
        let chroma = (self.random.below(4_096) as f64 + 0.5) / uv;
        let other = f64::from(self.random.number());
        let (kr, kb) = match self.random.below(7) {
            0 => (luma, other),
            1 => (other, luma),
            2 => (1.0 - other - luma, other),
            3 => (chroma * (1.0 - other), other),
            4 => (other, chroma * (1.0 - other)),
            5 => ((1.0 - other) * (1.0 - chroma), other),
            _ => (other, (1.0 - other) * (1.0 - chroma)),
        };
        for _ in 0..4 {
            let (x, y) = (self.nudged(kr), self.nudged(kb));
            self.consider(x as f32, y as f32);
        }
    }

    /// Moved by up to a few places of an f32 below 1.
    fn nudged(&mut self, k: f64) -> f64 {
        let size = 0.5f64.powi(22 + self.random.below(5) as i32);
        k + self.random.sign() * self.random.unit() * size
    }

    /// A pair that rounding moves as far as it can: 1 - kr and 1 - kr - kb are almost halfway
    /// between two numbers of f32, and the green weights almost at a half.
    fn halfway(&mut self) {
        let range = RANGES[self.random.below(2) as usize];
        let place = 0.5f64.powi(24);
        let end = |random: &mut Random| random.sign() * place * 0.5 * (1.0 - 0.001 * random.unit());
        let kb = match self.random.below(3) {
            0 => f64::from(self.random.number()),
            1 => 0.5 - self.random.unit().powi(3) * 0.02,
            _ => self.random.unit() * 0.5,
        };
        // kg times `factor` is the size of yg, of cb_g, or of cr_g where kr is 1/4
        let y = 8_192.0 / 255.0 * f64::from(range.range_y());
        let uv = 4_096.0 / 255.0 * f64::from(range.range_uv());
        let factor = match self.random.below(3) {
            0 => y,
            1 => uv / (1.0 - kb),
            _ => uv / 0.75,
        };
        let most = ((1.0 - kb) * factor) as u64;
        let weight = match self.random.below(2) {
            0 => most.saturating_sub(self.random.below(60)),
            _ => self.random.below(most + 1),
        };
        let kg = (((weight as f64 + 0.5) / factor) as f32) as f64;
        let kg = kg + (self.random.below(9) as f64 - 4.0) * place;
        for _ in 0..4 {
            // 1 - kr to `first`, and `first` - kb to kg
            let first = ((kg + kb) / place).round() * place;
            let kb = if self.random.below(2) == 0 {
                first - kg + end(&mut self.random)
            } else {
                kb
            };
            let kr = 1.0 - first + end(&mut self.random);
            self.consider(kr as f32, kb as f32);
            self.consider(kb as f32, kr as f32);
        }
    }

    /// From a best pair, some steps of each number, together or against each other.
    fn climb(&mut self) {
        let range = self.random.below(2) as usize;
        let index = self.random.below(9) as usize;
        for _ in 0..16 {
            let (kr, kb) = self.best[range][index].pair;
            let size = 1 << self.random.below(16);
            let mut step = || self.random.below(2 * size + 1) as i32 - size as i32;
            let (x, y) = (step(), step());
            let y = if self.random.below(4) == 0 { -x } else { y };
            let moved = |k: f32, step| f32::from_bits(k.to_bits().saturating_add_signed(step));
            self.consider(moved(kr, x), moved(kb, y));
        }
    }
}

fn main() {
    let rounds: u64 = match std::env::args().nth(1) {
        Some(text) => text.parse().expect("a number of rounds"),
        None => 3_000_000,
    };
    let none = Best {
        distance: -1.0,
        pair: (0.0, 0.0),
    };
    let mut search = Search {
        random: Random(SEED),
        pairs: 0,
        best: [[none; 9]; 2],
        sums: [[(i64::MAX, i64::MIN); 3]; 2],
    };
    search.special();
    for _ in 0..rounds {
        let (kr, kb) = (search.random.number(), search.random.number());
        search.consider(kr, kb);
        search.aimed();
        search.halfway();
        if search.random.below(4) == 0 {
            search.climb();
        }
    }
    println!("{} pairs, seed {SEED}", search.pairs);
    for (range, (best, sums)) in RANGES.into_iter().zip(search.best.iter().zip(&search.sums)) {
        println!("{range:?}");
        for (name, best) in NAMES.iter().zip(best) {
            let (kr, kb) = best.pair;
            let (kr_bits, kb_bits) = (kr.to_bits(), kb.to_bits());
            let distance = best.distance;
            println!(
                "  {name:<4} {distance:.8} at kr {kr_bits:08X} ({kr:.9}), kb {kb_bits:08X} ({kb:.9})"
            );
        }
        for (name, (least, most)) in ["luma", "cb", "cr"].iter().zip(sums) {
            println!("  {name} weights add to {least} to {most}");
        }
    }
}
