//! The nine weights of a matrix and a range: RULES 4.1, 4.2, 4.3, 4.4, 4.5.

use crate::settings::{YuvRange, YuvStandardMatrix};

/// Weights of r, g, b, × 8,192.
#[derive(Clone, Copy, Debug, PartialEq)]
pub struct Weights {
    pub y: [i64; 3],
    pub cb: [i64; 3],
    pub cr: [i64; 3],
}

/// RULES 4.1, 4.3: five matrices have stored weights, those of Fcc and Custom are worked out.
pub fn weights(matrix: YuvStandardMatrix, range: YuvRange) -> Weights {
    match (matrix, range) {
        (YuvStandardMatrix::Bt601, YuvRange::Limited) => BT601_LIMITED,
        (YuvStandardMatrix::Bt601, YuvRange::Full) => BT601_FULL,
        (YuvStandardMatrix::Bt709, YuvRange::Limited) => BT709_LIMITED,
        (YuvStandardMatrix::Bt709, YuvRange::Full) => BT709_FULL,
        (YuvStandardMatrix::Bt2020, YuvRange::Limited) => BT2020_LIMITED,
        (YuvStandardMatrix::Bt2020, YuvRange::Full) => BT2020_FULL,
        (YuvStandardMatrix::Smpte240, YuvRange::Limited) => SMPTE240_LIMITED,
        (YuvStandardMatrix::Smpte240, YuvRange::Full) => SMPTE240_FULL,
        (YuvStandardMatrix::Bt470_6, YuvRange::Limited) => BT470_LIMITED,
        (YuvStandardMatrix::Bt470_6, YuvRange::Full) => BT470_FULL,
        (YuvStandardMatrix::Fcc, range) => to_integers(get_forward_transform(0.30, 0.11, range)),
        (YuvStandardMatrix::Custom(kr, kb), range) => {
            to_integers(get_forward_transform(kr, kb, range))
        }
    }
}

/// RULES 4.4: the nine coefficients.
#[derive(Clone, Copy)]
struct Transform {
    y: [f32; 3],
    cb: [f32; 3],
    cr: [f32; 3],
}

/// RULES 4.4: the order of the operations is part of the rule.
fn get_forward_transform(kr: f32, kb: f32, range: YuvRange) -> Transform {
    let range_rgba = 255f32;
    let range_y = f32::from(range.range_y());
    let range_uv = f32::from(range.range_uv());
    let kg = 1f32 - kr - kb;
    Transform {
        y: [
            kr * range_y / range_rgba,
            kg * range_y / range_rgba,
            kb * range_y / range_rgba,
        ],
        cb: [
            -0.5f32 * kr / (1f32 - kb) * range_uv / range_rgba,
            -0.5f32 * kg / (1f32 - kb) * range_uv / range_rgba,
            0.5f32 * range_uv / range_rgba,
        ],
        cr: [
            0.5f32 * range_uv / range_rgba,
            -0.5f32 * kg / (1f32 - kr) * range_uv / range_rgba,
            -0.5f32 * kb / (1f32 - kr) * range_uv / range_rgba,
        ],
    }
}

fn to_integers(transform: Transform) -> Weights {
    let scaled = |triple: [f32; 3]| triple.map(|x| round(x * 8_192f32));
    Weights {
        y: scaled(transform.y),
        cb: scaled(transform.cb),
        cr: scaled(transform.cr),
    }
}

/// RULES 4.5: halves away from zero. Twice the number is exact, and its whole part tells a half.
fn round(x: f32) -> i64 {
    let twice = f64::from(x) * 2.0;
    let magnitude = (twice.abs() as i64).saturating_add(1) / 2;
    if x < 0.0 { -magnitude } else { magnitude }
}

// The sets `FORWARD_.._8_13PREC` of `built_coefficients.rs`.

const BT601_LIMITED: Weights = Weights {
    y: [2104, 4130, 802],
    cb: [-1214, -2384, 3598],
    cr: [3598, -3013, -585],
};

const BT601_FULL: Weights = Weights {
    y: [2449, 4809, 934],
    cb: [-1382, -2714, 4096],
    cr: [4096, -3430, -666],
};

const BT709_LIMITED: Weights = Weights {
    y: [1496, 5032, 508],
    cb: [-824, -2774, 3598],
    cr: [3598, -3268, -330],
};

const BT709_FULL: Weights = Weights {
    y: [1742, 5859, 591],
    cb: [-939, -3157, 4096],
    cr: [4096, -3720, -376],
};

const BT2020_LIMITED: Weights = Weights {
    y: [1848, 4770, 417],
    cb: [-1005, -2593, 3598],
    cr: [3598, -3309, -289],
};

const BT2020_FULL: Weights = Weights {
    y: [2152, 5554, 486],
    cb: [-1144, -2952, 4096],
    cr: [4096, -3767, -329],
};

const SMPTE240_LIMITED: Weights = Weights {
    y: [612, 4932, 1492],
    cb: [-397, -3201, 3598],
    cr: [3598, -2763, -835],
};

const SMPTE240_FULL: Weights = Weights {
    y: [713, 5743, 1737],
    cb: [-452, -3644, 4096],
    cr: [4096, -3145, -951],
};

const BT470_LIMITED: Weights = Weights {
    y: [1562, 4972, 502],
    cb: [-860, -2738, 3598],
    cr: [3598, -3268, -330],
};

const BT470_FULL: Weights = Weights {
    y: [1819, 5789, 584],
    cb: [-979, -3117, 4096],
    cr: [4096, -3721, -375],
};
