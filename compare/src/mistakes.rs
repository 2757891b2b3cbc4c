//! Mistakes near at hand: a converter of accepted frames that can make each of
//! them, so that a list of calls can be held to catch them. With none it converts as the model.

use crate::request::{FrameRequest, Lent};
use model::curves::tables;
use model::matrix::{Weights, weights};
use model::settings::{chroma_width, plane_rows};
use model::{
    SharpYuvGammaTransfer, TableRounding, YuvChromaSubsampling, YuvRange, YuvStandardMatrix,
};

#[derive(Clone, Copy, PartialEq)]
pub enum Mistake {
    None,
    LinearRounded,
    GammaRounded,
    BothRounded,
    LumaHalf,
    ChromaHalf,
    OddPixelThroughTables,
    EqualWeights,
    /// The weight of this channel (r, g, b) in luma is 8,192 less the other two.
    SumOf8192(usize),
    HalvesToEven,
    TiesUp,
    BlueBeforeRed,
    NearestLost,
    NearestLinearOnly,
    NearestGammaOnly,
    HalvesDown,
    ScaleDigit,
    RightFromOutside,
    BelowFromOutside,
    LeftInBytes,
    LeftLost,
    TopLost,
    OtherDenominator,
    OwnOfFull,
    EightBits,
    AlphaFirst,
}

use Mistake::*;

/// All of them in the words of the request, a mistake that can be made in several places in each
/// of them; and three of the weights that are worked out.
pub const MISTAKES: [(Mistake, &str); 13] = [
    (BothRounded, "curve entries rounded, both tables"),
    (LinearRounded, "curve entries rounded, linear table"),
    (GammaRounded, "curve entries rounded, gamma table"),
    (LumaHalf, "4,096 where 4,095 stands, luma"),
    (ChromaHalf, "4,096 where 4,095 stands, chroma"),
    (
        OddPixelThroughTables,
        "4:2:2's odd pixel through the tables",
    ),
    (EqualWeights, "four pixels averaged equally"),
    (SumOf8192(0), "stored weights taken to add to 8,192, by red"),
    (
        SumOf8192(1),
        "stored weights taken to add to 8,192, by green",
    ),
    (
        SumOf8192(2),
        "stored weights taken to add to 8,192, by blue",
    ),
    (HalvesToEven, "a Custom weight's half rounded to even"),
    (TiesUp, "a binary32 tie of Custom rounded up, not to even"),
    (BlueBeforeRed, "Custom's kg as (1 − kb) − kr"),
];

/// Mistakes in the tables that a call chooses, and in a digit that both are made from.
pub const TABLE_MISTAKES: [(Mistake, &str); 5] = [
    (NearestLost, "nearest entries truncated, both tables"),
    (
        NearestLinearOnly,
        "nearest entries in the linear table only",
    ),
    (NearestGammaOnly, "nearest entries in the gamma table only"),
    (HalvesDown, "exact halves of nearest entries downward"),
    (ScaleDigit, "the seventh digit of Srgb's scale one lower"),
];

/// Mistakes in where the rectangle's pixels are, and where it ends.
pub const WINDOW_MISTAKES: [(Mistake, &str); 5] = [
    (
        RightFromOutside,
        "an odd width's right neighbour from outside the rectangle",
    ),
    (
        BelowFromOutside,
        "the row below an odd height from outside the rectangle",
    ),
    (LeftInBytes, "left in bytes, not in pixels"),
    (LeftLost, "left not applied"),
    (TopLost, "top not applied in a frame call"),
];

/// Mistakes that give grey a tint: weights of a chroma triple that come nowhere near adding to 0, and
/// a fourth byte among the colours.
pub const GREY_MISTAKES: [(Mistake, &str); 4] = [
    (
        OtherDenominator,
        "Custom's Cb over 1 − kr and its Cr over 1 − kb",
    ),
    (
        OwnOfFull,
        "Custom's own weights of Cb and Cr those of Full in Limited",
    ),
    (EightBits, "weights in units of 1 / 256"),
    (AlphaFirst, "alpha taken to stand first"),
];

/// The gamma entries of Rec709 whose exact values end in a half: slope × 255 × i / 65,535 is 4.5 and
/// 13.5. No other entry of any table is at one.
pub const EXACT_HALVES: [usize; 2] = [257, 771];

struct Rules {
    mistake: Mistake,
    weights: Weights,
    range: YuvRange,
    linear: Vec<u64>,
    gamma: Vec<i64>,
}

/// The buffers of an accepted frame after the call of a converter with this mistake.
pub fn convert(mistake: Mistake, request: &FrameRequest) -> Lent {
    let f = &request.frame;
    let settings = &f.settings;
    let rules = Rules::new(mistake, request);
    let (w, h) = (f.w as usize, f.h as usize);
    let c = settings.channels.bytes() as usize;
    let [stride, y_stride, u_stride, v_stride] = request.strides().map(|stride| stride as usize);
    let window = &f.window;
    let (left, top) = (window.left as usize, window.top as usize);
    let (column, row) = match mistake {
        LeftInBytes => (left, top),
        LeftLost => (0, top),
        TopLost => (left * c, 0),
        _ => (left * c, top),
    };
    let skipped = usize::from(mistake == AlphaFirst && c == 4);
    let rgb = |r: usize, p: usize| {
        let pixel = &request.lent[0][(row + r) * stride + column + p * c + skipped..];
        settings.channels.offsets().map(|offset| pixel[offset])
    };
    // Where the rectangle ends: one further by a mistake, if the source has a pixel there.
    let is_past = |mine: Mistake, end: usize, all: u32| mistake == mine && end < all as usize;
    let right = w + usize::from(is_past(RightFromOutside, left + w, window.source_width));
    let bottom = h + usize::from(is_past(BelowFromOutside, top + h, window.source_height));
    let mut lent = request.lent.clone();
    for (r, p) in (0..h).flat_map(|r| (0..w).map(move |p| (r, p))) {
        lent[1][r * y_stride + p] = rules.luma(rgb(r, p));
    }
    let (_, chroma_rows) = plane_rows(settings.sampling, f.h);
    let (rows, columns) = (chroma_rows as usize, chroma_width(w as u64) as usize);
    for (k, j) in (0..rows).flat_map(|k| (0..columns).map(move |j| (k, j))) {
        let p = 2 * j;
        let corrected = match settings.sampling {
            YuvChromaSubsampling::Yuv420 => {
                let (this, below) = (2 * k, (2 * k + 1).min(bottom - 1));
                if p + 1 < right {
                    let four = [
                        rgb(this, p),
                        rgb(this, p + 1),
                        rgb(below, p),
                        rgb(below, p + 1),
                    ];
                    rules.interpolated(rules.shares([9, 3, 3, 1], [4, 4, 4, 4]), four)
                } else {
                    let two = [rgb(this, p), rgb(below, p)];
                    rules.interpolated(rules.shares([12, 4], [8, 8]), two)
                }
            }
            YuvChromaSubsampling::Yuv422 if p + 1 < right => {
                rules.interpolated([12, 4], [rgb(k, p), rgb(k, p + 1)])
            }
            YuvChromaSubsampling::Yuv422 if mistake == OddPixelThroughTables => {
                rules.interpolated([16], [rgb(k, p)])
            }
            YuvChromaSubsampling::Yuv422 => rgb(k, p).map(i64::from),
        };
        lent[2][k * u_stride + j] = rules.chroma(rules.weights.cb, corrected);
        lent[3][k * v_stride + j] = rules.chroma(rules.weights.cr, corrected);
    }
    lent
}

impl Rules {
    fn new(mistake: Mistake, request: &FrameRequest) -> Rules {
        let settings = &request.frame.settings;
        let mut weights = weights(settings.matrix, settings.range);
        if let (SumOf8192(channel), true) = (mistake, full_and_stored(settings)) {
            weights.y[channel] -= weights.y.iter().sum::<i64>() - 8_192;
        }
        if mistake == EightBits {
            let eight_bits = |weight: i64| 32 * (weight as f64 / 32.0).round() as i64;
            for triple in [&mut weights.y, &mut weights.cb, &mut weights.cr] {
                *triple = triple.map(eight_bits);
            }
        }
        let of_weights = matches!(
            mistake,
            HalvesToEven | TiesUp | BlueBeforeRed | OtherDenominator | OwnOfFull
        );
        if let (true, YuvStandardMatrix::Custom(kr, kb)) = (of_weights, settings.matrix) {
            weights = custom_weights(mistake, kr, kb, settings.range);
        }
        let (linear, gamma) = mistaken_tables(mistake, settings);
        Rules {
            mistake,
            weights,
            range: settings.range,
            linear,
            gamma,
        }
    }

    fn shares<const N: usize>(&self, right: [u64; N], equal: [u64; N]) -> [u64; N] {
        if self.mistake == EqualWeights {
            equal
        } else {
            right
        }
    }

    fn interpolated<const N: usize>(&self, shares: [u64; N], pixels: [[u8; 3]; N]) -> [i64; 3] {
        [0, 1, 2].map(|channel| {
            let linear = pixels.map(|rgb| self.linear[usize::from(rgb[channel])]);
            let sum: u64 = (0..N).map(|i| shares[i] * linear[i]).sum();
            self.gamma[((sum + 8) / 16) as usize]
        })
    }

    fn luma(&self, rgb: [u8; 3]) -> u8 {
        let by = self.range.bias_y();
        let half = if self.mistake == LumaHalf {
            4_096
        } else {
            4_095
        };
        let value = weighted(self.weights.y, rgb.map(i64::from), by, half);
        value.min(by + i64::from(self.range.range_y())) as u8
    }

    fn chroma(&self, triple: [i64; 3], corrected: [i64; 3]) -> u8 {
        let by = self.range.bias_y();
        let half = if self.mistake == ChromaHalf {
            4_096
        } else {
            4_095
        };
        let value = weighted(triple, corrected, 128, half);
        value.clamp(by, by + i64::from(self.range.range_uv())) as u8
    }
}

/// Both tables, the linear one first.
fn mistaken_tables(mistake: Mistake, settings: &model::Settings) -> (Vec<u64>, Vec<i64>) {
    use TableRounding::{Nearest, Truncated};
    let linear = match mistake {
        LinearRounded | BothRounded => Nearest,
        NearestLost | NearestGammaOnly => Truncated,
        _ => settings.rounding,
    };
    let gamma = match mistake {
        GammaRounded | BothRounded => Nearest,
        NearestLost | NearestLinearOnly => Truncated,
        _ => settings.rounding,
    };
    let linear = &tables(settings.transfer, linear).linear;
    let gamma = &tables(settings.transfer, gamma).gamma;
    let mut linear: Vec<u64> = linear.iter().copied().map(u64::from).collect();
    let mut gamma: Vec<i64> = gamma.iter().copied().map(i64::from).collect();
    match (mistake, settings.transfer, settings.rounding) {
        (HalvesDown, SharpYuvGammaTransfer::Rec709, Nearest) => {
            for i in EXACT_HALVES {
                gamma[i] -= 1;
            }
        }
        // The entries that 1.055010618947587 moves, two and four, as `tools/tables.py --moved` has them.
        (ScaleDigit, SharpYuvGammaTransfer::Srgb, Truncated) => {
            linear[168] -= 1;
            gamma[25_662] += 1;
        }
        (ScaleDigit, SharpYuvGammaTransfer::Srgb, Nearest) => {
            for i in [147, 154, 166] {
                linear[i] -= 1;
            }
            gamma[16_525] += 1;
        }
        _ => {}
    }
    (linear, gamma)
}

fn weighted(triple: [i64; 3], rgb: [i64; 3], bias: i64, half: i64) -> i64 {
    let sum: i64 = (0..3).map(|i| triple[i] * rgb[i]).sum();
    (sum + bias * 8_192 + half).div_euclid(8_192)
}

/// Whether a stored set of the full range is taken: only there one may expect 8,192.
fn full_and_stored(settings: &model::Settings) -> bool {
    let stored = !matches!(
        settings.matrix,
        YuvStandardMatrix::Fcc | YuvStandardMatrix::Custom(..)
    );
    stored && settings.range == YuvRange::Full
}

/// The weights of a Custom pair by the steps of RULES 4.4, 4.5, with one mistake in them.
fn custom_weights(mistake: Mistake, kr: f32, kb: f32, range: YuvRange) -> Weights {
    let (range_y, range_uv) = (f32::from(range.range_y()), f32::from(range.range_uv()));
    let step = |exact: f64| kept(mistake, exact);
    let minus = |a: f32, b: f32| step(f64::from(a) - f64::from(b));
    let times = |a: f32, b: f32| step(f64::from(a) * f64::from(b));
    let over = |a: f32, b: f32| step(f64::from(a) / f64::from(b));
    let kg = match mistake {
        BlueBeforeRed => minus(minus(1.0, kb), kr),
        _ => minus(minus(1.0, kr), kb),
    };
    let y = |k: f32| over(times(k, range_y), 255.0);
    let uv = |k: f32, own: f32| {
        let quotient = over(times(-0.5, k), minus(1.0, own));
        over(times(quotient, range_uv), 255.0)
    };
    let own = match mistake {
        OwnOfFull => 0.5,
        _ => over(times(0.5, range_uv), 255.0),
    };
    let (of_cb, of_cr) = match mistake {
        OtherDenominator => (kr, kb),
        _ => (kb, kr),
    };
    let whole = |triple: [f32; 3]| {
        triple.map(|x| match mistake {
            HalvesToEven => times(x, 8_192.0).round_ties_even() as i64,
            _ => times(x, 8_192.0).round() as i64,
        })
    };
    Weights {
        y: whole([y(kr), y(kg), y(kb)]),
        cb: whole([uv(kr, of_cb), uv(kg, of_cb), own]),
        cr: whole([own, uv(kg, of_cr), uv(kb, of_cr)]),
    }
}

/// The result of one step as a binary32 number. One operation on two of them leaves, in 53 digits,
/// no doubt which is the nearest, and whether two are.
fn kept(mistake: Mistake, exact: f64) -> f32 {
    let near = exact as f32;
    let next = if exact < 0.0 {
        near.next_down()
    } else {
        near.next_up()
    };
    let tie = f64::from(next) - exact == exact - f64::from(near);
    if mistake == TiesUp && tie { next } else { near }
}
