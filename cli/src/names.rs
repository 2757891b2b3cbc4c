//! The names by which the command line knows the library's settings.

use segvartin::{
    RecordSettings, RecordedMatrix, SharpYuvGammaTransfer, TableRounding, YuvChromaSubsampling,
    YuvRange, YuvSourceChannels, YuvStandardMatrix,
};

pub const CHANNELS: &[&str] = &["rgb24", "rgba", "bgra", "bgr24"];
pub const SAMPLINGS: &[&str] = &["420", "422"];
/// The last two are ffmpeg's names of the first two.
pub const RANGES: &[&str] = &["limited", "full", "tv", "pc"];
pub const MATRICES: &[&str] = &[
    "bt601", "bt709", "bt2020", "smpte240", "bt470-6", "fcc", "custom",
];
pub const TRANSFERS: &[&str] = &["srgb", "rec709", "gamma22", "gamma28"];
pub const ROUNDINGS: &[&str] = &["truncated", "nearest"];

pub fn channels(name: &str) -> YuvSourceChannels {
    match name {
        "rgba" => YuvSourceChannels::Rgba,
        "bgra" => YuvSourceChannels::Bgra,
        "bgr24" => YuvSourceChannels::Bgr,
        _ => YuvSourceChannels::Rgb,
    }
}

pub fn sampling(name: &str) -> YuvChromaSubsampling {
    match name {
        "422" => YuvChromaSubsampling::Yuv422,
        _ => YuvChromaSubsampling::Yuv420,
    }
}

pub fn range(name: &str) -> YuvRange {
    match name {
        "full" | "pc" => YuvRange::Full,
        _ => YuvRange::Limited,
    }
}

/// With kr and kb for a custom one.
pub fn matrix(name: &str, custom: (f32, f32)) -> YuvStandardMatrix {
    match name {
        "bt709" => YuvStandardMatrix::Bt709,
        "bt2020" => YuvStandardMatrix::Bt2020,
        "smpte240" => YuvStandardMatrix::Smpte240,
        "bt470-6" => YuvStandardMatrix::Bt470_6,
        "fcc" => YuvStandardMatrix::Fcc,
        "custom" => YuvStandardMatrix::Custom(custom.0, custom.1),
        _ => YuvStandardMatrix::Bt601,
    }
}

pub fn transfer(name: &str) -> SharpYuvGammaTransfer {
    match name {
        "rec709" => SharpYuvGammaTransfer::Rec709,
        "gamma22" => SharpYuvGammaTransfer::Gamma2p2,
        "gamma28" => SharpYuvGammaTransfer::Gamma2p8,
        _ => SharpYuvGammaTransfer::Srgb,
    }
}

pub fn rounding(name: &str) -> TableRounding {
    match name {
        "nearest" => TableRounding::Nearest,
        _ => TableRounding::Truncated,
    }
}

pub fn sampling_name(value: YuvChromaSubsampling) -> &'static str {
    named(SAMPLINGS, |name| sampling(name) == value)
}

/// Range, matrix and transfer, where they are recorded.
pub fn recorded_names(settings: &RecordSettings) -> [Option<&'static str>; 3] {
    let matrix = |name: &str| RecordedMatrix::from(matrix(name, (0.0, 0.0)));
    [
        settings
            .range
            .map(|value| named(RANGES, |name| range(name) == value)),
        settings
            .matrix
            .map(|value| named(MATRICES, |name| matrix(name) == value)),
        settings
            .transfer
            .map(|value| named(TRANSFERS, |name| transfer(name) == value)),
    ]
}

/// The first of the names that is meant.
fn named(names: &[&'static str], is: impl Fn(&str) -> bool) -> &'static str {
    names.iter().find(|name| is(name)).unwrap_or(&"")
}

#[cfg(test)]
mod tests {
    use super::*;

    #[test]
    fn each_name_has_a_meaning_of_its_own() {
        let all_unlike = |count: usize, same: &dyn Fn(usize, usize) -> bool| {
            (0..count).all(|i| (0..i).all(|j| !same(i, j)))
        };
        assert!(all_unlike(4, &|i, j| channels(CHANNELS[i]) == channels(CHANNELS[j])));
        assert!(all_unlike(2, &|i, j| sampling(SAMPLINGS[i]) == sampling(SAMPLINGS[j])));
        assert!(all_unlike(2, &|i, j| range(RANGES[i]) == range(RANGES[j])));
        assert!(all_unlike(7, &|i, j| matrix(MATRICES[i], (0.1, 0.1))
            == matrix(MATRICES[j], (0.1, 0.1))));
        assert!(all_unlike(4, &|i, j| transfer(TRANSFERS[i]) == transfer(TRANSFERS[j])));
        assert!(all_unlike(2, &|i, j| rounding(ROUNDINGS[i]) == rounding(ROUNDINGS[j])));
    }
}
