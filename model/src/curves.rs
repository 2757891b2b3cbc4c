//! Both tables over whole numbers: RULES 3.1, 3.2, 3.3, 3.4, 3.5.

use crate::settings::{SharpYuvGammaTransfer, TableRounding};
use crate::whole::Whole;
use std::sync::OnceLock;

/// A decimal x of RULES 3.1 is held as x × ONE, which is whole for all of them.
const ONE: u64 = 1_000000000000000;

/// Slope, break, offset and scale are × ONE. The power is up/down.
struct Curve {
    slope: u64,
    break_at: u64,
    offset: u64,
    scale: u64,
    up: u32,
    down: u32,
}

/// The decimals of RULES 3.1: the underscore stands where their point does. A power alone has
/// nothing below its break at 0, and a scale of 1 and the offset of 0 that it makes change nothing.
#[allow(clippy::zero_prefixed_literal)]
fn curve(transfer: SharpYuvGammaTransfer) -> Curve {
    let (slope, break_at, scale, up, down) = match transfer {
        SharpYuvGammaTransfer::Srgb => (
            12_920000000000000,
            0_003041282560128,
            1_055010718947587,
            12,
            5,
        ),
        SharpYuvGammaTransfer::Rec709 => (
            4_500000000000000,
            0_018053968510807,
            1_099296826809442,
            20,
            9,
        ),
        SharpYuvGammaTransfer::Gamma2p2 => (ONE, 0, ONE, 11, 5),
        SharpYuvGammaTransfer::Gamma2p8 => (ONE, 0, ONE, 14, 5),
    };
    Curve {
        slope,
        break_at,
        offset: scale - ONE,
        scale,
        up,
        down,
    }
}

/// RULES 3.4: the largest n from 0 to 65,535 with (n - half)/65,535 not above the curve at v/255,
/// half being 0 or 1/2 by the rounding. 0 always passes.
pub fn linear_entry(transfer: SharpYuvGammaTransfer, rounding: TableRounding, v: u8) -> u16 {
    let curve = curve(transfer);
    let v = u64::from(v);
    if v == 255 {
        // At 1 it is 1.
        return 65_535;
    }
    // Twice n - half: whole, and above 0 where n is.
    let lessened = |n: u64| 2 * n - rounding.halves();
    // v/255 below slope × break; both decimals are × ONE, so the left side takes ONE twice.
    let below = u128::from(v) * u128::from(ONE) * u128::from(ONE)
        < 255 * u128::from(curve.slope) * u128::from(curve.break_at);
    if below {
        // lessened/(2 × 65,535) <= (v/255) / slope.
        let right = 2 * 65_535 * u128::from(v) * u128::from(ONE);
        return largest(65_535, |n| {
            u128::from(lessened(n)) * 255 * u128::from(curve.slope) <= right
        }) as u16;
    }
    // lessened/(2 × 65,535) <= ((v/255 + offset) / scale)^(up/down), both sides raised to the power
    // down and multiplied by (2 × 65,535)^down × (255 × scale)^up:
    // lessened^down × (255 × scale)^up <= (v + 255 × offset)^up × (2 × 65,535)^down.
    let unit = Whole::new(255 * curve.scale).power(curve.up);
    let right = Whole::new(v * ONE + 255 * curve.offset)
        .power(curve.up)
        .times(&Whole::new(2 * 65_535).power(curve.down));
    largest(65_535, |n| {
        Whole::new(lessened(n)).power(curve.down).times(&unit) <= right
    }) as u16
}

/// RULES 3.5: the largest k from 0 to 255 with (k - half)/255 not above the inverse at i/65,535,
/// half being 0 or 1/2 by the rounding. 0 always passes.
pub fn gamma_entry(transfer: SharpYuvGammaTransfer, rounding: TableRounding, i: u16) -> u8 {
    GammaRule::new(transfer, rounding).entry(i)
}

/// What all gamma entries of a transfer and a rounding share.
struct GammaRule {
    curve: Curve,
    /// Twice k - half, for k from 1 to 255.
    lessened: Vec<u64>,
    /// (2 × 255 × scale)^up.
    unit: Whole,
    /// (lessened + 2 × 255 × offset)^up × 65,535^down.
    left: Vec<Whole>,
}

impl GammaRule {
    fn new(transfer: SharpYuvGammaTransfer, rounding: TableRounding) -> GammaRule {
        let curve = curve(transfer);
        let table = Whole::new(65_535).power(curve.down);
        let lessened: Vec<u64> = (1..=255).map(|k| 2 * k - rounding.halves()).collect();
        let left = (lessened.iter())
            .map(|lessened| {
                let sum = Whole::new(lessened * ONE + 2 * 255 * curve.offset);
                sum.power(curve.up).times(&table)
            })
            .collect();
        GammaRule {
            unit: Whole::new(2 * 255 * curve.scale).power(curve.up),
            lessened,
            left,
            curve,
        }
    }

    fn entry(&self, i: u16) -> u8 {
        let i = u64::from(i);
        if i == 65_535 {
            // At 1 it is 1.
            return 255;
        }
        // All below a k that passes pass too: the largest is as many as pass from 1 on.
        let (wide, one) = (u128::from(i), u128::from(ONE));
        if wide * one < 65_535 * u128::from(self.curve.break_at) {
            // lessened/(2 × 255) <= slope × i/65,535.
            let right = 2 * 255 * wide * u128::from(self.curve.slope);
            let passes = |lessened: &u64| u128::from(*lessened) * 65_535 * one <= right;
            return self.lessened.partition_point(passes) as u8;
        }
        // lessened/(2 × 255) <= scale × (i/65,535)^(down/up) - offset, that is
        // ((lessened/(2 × 255) + offset) / scale)^(up/down) <= i/65,535, made whole as in
        // `linear_entry`:
        // (lessened + 2 × 255 × offset)^up × 65,535^down <= i^down × (2 × 255 × scale)^up.
        let right = Whole::new(i).power(self.curve.down).times(&self.unit);
        self.left.partition_point(|left| *left <= right) as u8
    }
}

/// The largest n from 0 to top that passes, where all below a passing n pass and 0 does. 0 is not
/// asked.
fn largest(top: u64, passes: impl Fn(u64) -> bool) -> u64 {
    let (mut low, mut high) = (0, top);
    while low < high {
        let middle = (low + high).div_ceil(2);
        if passes(middle) {
            low = middle;
        } else {
            high = middle - 1;
        }
    }
    low
}

/// Both tables of a transfer and a rounding, entry by entry as the rules above have them.
pub struct Tables {
    pub linear: Vec<u16>,
    pub gamma: Vec<u8>,
}

/// The tables, made once a program.
pub fn tables(transfer: SharpYuvGammaTransfer, rounding: TableRounding) -> &'static Tables {
    static MADE: [[OnceLock<Tables>; 2]; 4] = [const { [const { OnceLock::new() }; 2] }; 4];
    MADE[transfer as usize][rounding as usize].get_or_init(|| {
        let rule = GammaRule::new(transfer, rounding);
        Tables {
            linear: (0..=255)
                .map(|v| linear_entry(transfer, rounding, v))
                .collect(),
            gamma: (0..=65_535).map(|i| rule.entry(i)).collect(),
        }
    })
}
