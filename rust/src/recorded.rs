//! How the planes of a record were made, as a shift file with settings says it: RULES 11.7.

use crate::settings::{
    FrameDescription, SharpYuvGammaTransfer, YuvChromaSubsampling, YuvRange, YuvStandardMatrix,
};

/// The form of a shift file: whether its records say how their planes were made. No bytes are a file of both forms.
#[derive(Debug, Copy, Clone, PartialEq, Eq)]
pub enum ShiftForm {
    WithoutSettings,
    WithSettings,
}

/// The matrix of a record. Of a Custom one no kr and kb are recorded.
#[derive(Debug, Copy, Clone, PartialEq, Eq)]
pub enum RecordedMatrix {
    Bt601,
    Bt709,
    Bt2020,
    Smpte240,
    Bt470_6,
    Fcc,
    Custom,
}

impl From<YuvStandardMatrix> for RecordedMatrix {
    fn from(matrix: YuvStandardMatrix) -> RecordedMatrix {
        match matrix {
            YuvStandardMatrix::Bt601 => RecordedMatrix::Bt601,
            YuvStandardMatrix::Bt709 => RecordedMatrix::Bt709,
            YuvStandardMatrix::Bt2020 => RecordedMatrix::Bt2020,
            YuvStandardMatrix::Smpte240 => RecordedMatrix::Smpte240,
            YuvStandardMatrix::Bt470_6 => RecordedMatrix::Bt470_6,
            YuvStandardMatrix::Fcc => RecordedMatrix::Fcc,
            YuvStandardMatrix::Custom(..) => RecordedMatrix::Custom,
        }
    }
}

/// Every matrix, with any kr and kb for Custom.
const MATRICES: [YuvStandardMatrix; 7] = [
    YuvStandardMatrix::Bt601,
    YuvStandardMatrix::Bt709,
    YuvStandardMatrix::Bt2020,
    YuvStandardMatrix::Smpte240,
    YuvStandardMatrix::Bt470_6,
    YuvStandardMatrix::Fcc,
    YuvStandardMatrix::Custom(0.0, 0.0),
];

/// What a record says of how its planes were made; `None` is a setting that is not recorded. kr and kb of a Custom matrix do not travel with it, and
/// neither does the rounding of the curve tables. [`RecordSettings::of`] or [`RecordSettings::new`] makes it, and a field is then set by name; it may
/// gain fields.
///
/// ```
/// use segvartin::*;
///
/// let mut settings = RecordSettings::new(YuvChromaSubsampling::Yuv422); // nothing else recorded
/// settings.matrix = Some(YuvStandardMatrix::Custom(0.25, 0.1).into());
/// assert_eq!(settings.matrix, Some(RecordedMatrix::Custom));
/// assert_eq!((settings.range, settings.transfer), (None, None));
/// ```
#[derive(Debug, Copy, Clone, PartialEq, Eq)]
#[non_exhaustive]
pub struct RecordSettings {
    /// Always recorded: the rows of U and V go by it.
    pub sampling: YuvChromaSubsampling,
    pub range: Option<YuvRange>,
    pub matrix: Option<RecordedMatrix>,
    pub transfer: Option<SharpYuvGammaTransfer>,
}

/// RULES 11.7.
const NOT_RECORDED: u32 = 255;

impl RecordSettings {
    /// The sampling, and nothing else recorded.
    #[must_use]
    pub fn new(sampling: YuvChromaSubsampling) -> RecordSettings {
        RecordSettings {
            sampling,
            range: None,
            matrix: None,
            transfer: None,
        }
    }

    /// The settings of a frame call, all recorded.
    #[must_use]
    pub fn of(frame: &FrameDescription) -> RecordSettings {
        RecordSettings {
            sampling: frame.sampling,
            range: Some(frame.range),
            matrix: Some(frame.matrix.into()),
            transfer: Some(frame.transfer),
        }
    }

    /// Sampling, range, matrix, transfer.
    pub(crate) fn codes(&self) -> [u32; 4] {
        let matrix = |recorded| {
            let is = |matrix: &YuvStandardMatrix| RecordedMatrix::from(*matrix) == recorded;
            MATRICES.into_iter().find(is)
        };
        let matrix = self.matrix.and_then(matrix);
        [
            self.sampling.code(),
            self.range.map_or(NOT_RECORDED, YuvRange::code),
            matrix.map_or(NOT_RECORDED, YuvStandardMatrix::code),
            self.transfer
                .map_or(NOT_RECORDED, SharpYuvGammaTransfer::code),
        ]
    }

    /// Those of which the library told these codes.
    pub(crate) fn of_codes([sampling, range, matrix, transfer]: [u64; 4]) -> RecordSettings {
        use SharpYuvGammaTransfer::*;
        let sampling = if sampling == u64::from(YuvChromaSubsampling::Yuv422.code()) {
            YuvChromaSubsampling::Yuv422
        } else {
            YuvChromaSubsampling::Yuv420
        };
        let is = |code: u32, told: u64| u64::from(code) == told;
        let ranges = [YuvRange::Limited, YuvRange::Full];
        let transfers = [Srgb, Rec709, Gamma2p2, Gamma2p8];
        RecordSettings {
            sampling,
            range: ranges.into_iter().find(|one| is(one.code(), range)),
            matrix: (MATRICES.into_iter())
                .find(|one| is(one.code(), matrix))
                .map(RecordedMatrix::from),
            transfer: transfers.into_iter().find(|one| is(one.code(), transfer)),
        }
    }
}
