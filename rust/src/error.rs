//! The refusals: RULES 7.1.

use std::error::Error;
use std::fmt::{Display, Formatter};

/// Shows size mismatching.
#[derive(Debug, Copy, Clone, Ord, PartialOrd, Eq, PartialEq)]
pub struct MismatchedSize {
    pub expected: usize,
    pub received: usize,
}

/// The refusals, in the order of RULES 7.1. Where several hold, the first in this order is answered. There may be more of them one day: a
/// `match` needs a last arm `_`.
#[derive(Debug, Copy, Clone, Eq, PartialEq)]
#[non_exhaustive]
pub enum YuvError {
    /// 15: a shift file, or what is to be written, breaks the layout, or has the form that the call does not take; or a record's width or height is not
    /// from 1 to 16,384; or a summary is to be updated with what is not one record of the file's form, or for a file that has 4,096.
    MalformedShiftFile,
    /// 17: the memory lent for a summary is too short; or, in a lookup or an update, it is not the file's summary.
    SummaryMismatch,
    /// 19: the text or the planes of a Y4M file break its rules; or, of what is to be written, width or height is not from 1 to 16,384, the bytes are not
    /// whole pictures, a stride is below its row, or a plane is not exactly its stride times its rows long.
    MalformedY4m,
    /// 21: a camera number above 31; or a band is offered for a number without an open frame.
    CameraMismatch,
    /// 22: a band is offered while that camera's last one waits.
    BandStillWaiting,
    /// 23: a frame is open at that camera number.
    CameraInUse,
    /// 18: of several frames in one call, there are more than 64, a part reaches outside its buffer, or parts of two frames in Y, in U or in V share a
    /// byte. At a desk: a part of a frame to be opened reaches outside its buffer or shares a byte with an open frame's; an offered band reaches
    /// outside the source; or, at its step, a part of the band or of its frame reaches outside the buffers that are lent then.
    PartsMismatch,
    /// 1: a setting without a meaning. The enums of this crate have none, so no call here answers it.
    MalformedRequest,
    /// 2: width or height is 0.
    ZeroBaseSize,
    /// 3: width or height is above 16,384, of the frame or of the large source.
    SizeTooLarge,
    /// 4: kr or kb of Custom is not from 0 to 0.5, or is no number.
    MatrixNotAccepted,
    /// 14: the window ends outside the large source.
    WindowOutsideSource,
    /// 5: a band of 0 rows, or of more than remain.
    BandRowsMismatch,
    /// 6: the source is too short.
    DestinationSizeMismatch(MismatchedSize),
    /// 7: the source's stride is below its row.
    MinimumStrideSizeMismatch(MismatchedSize),
    /// 8: the stride of Y is below its row.
    LumaPlaneMinimumSizeMismatch(MismatchedSize),
    /// 9: Y is too short.
    LumaPlaneSizeMismatch(MismatchedSize),
    /// 10: the stride of U is below its row, or U is too short.
    UPlaneMinimumSizeMismatch(MismatchedSize),
    /// 11: the same of V.
    VPlaneMinimumSizeMismatch(MismatchedSize),
    /// 12: the first of source, Y, U, V that is not exactly its stride times its rows long.
    WholeRowsMismatch(MismatchedSize),
    /// 13: the carried row is shorter than 3 × width.
    CarriedRowSizeMismatch(MismatchedSize),
    /// 20: a shift file to be moved back has a record in 4:2:2, or one with a range, matrix or transfer that is recorded.
    SettingsRecorded,
    /// 16: the memory lent for a file, a record or a picture is too short.
    OutputTooShort,
}

impl YuvError {
    /// The refusal's number.
    #[must_use]
    pub fn number(&self) -> u32 {
        match self {
            YuvError::MalformedShiftFile => 15,
            YuvError::SummaryMismatch => 17,
            YuvError::MalformedY4m => 19,
            YuvError::CameraMismatch => 21,
            YuvError::BandStillWaiting => 22,
            YuvError::CameraInUse => 23,
            YuvError::PartsMismatch => 18,
            YuvError::MalformedRequest => 1,
            YuvError::ZeroBaseSize => 2,
            YuvError::SizeTooLarge => 3,
            YuvError::MatrixNotAccepted => 4,
            YuvError::WindowOutsideSource => 14,
            YuvError::BandRowsMismatch => 5,
            YuvError::DestinationSizeMismatch(_) => 6,
            YuvError::MinimumStrideSizeMismatch(_) => 7,
            YuvError::LumaPlaneMinimumSizeMismatch(_) => 8,
            YuvError::LumaPlaneSizeMismatch(_) => 9,
            YuvError::UPlaneMinimumSizeMismatch(_) => 10,
            YuvError::VPlaneMinimumSizeMismatch(_) => 11,
            YuvError::WholeRowsMismatch(_) => 12,
            YuvError::CarriedRowSizeMismatch(_) => 13,
            YuvError::SettingsRecorded => 20,
            YuvError::OutputTooShort => 16,
        }
    }

    /// Expected and received, where the refusal carries them.
    #[must_use]
    pub fn size(&self) -> Option<MismatchedSize> {
        match *self {
            YuvError::MalformedShiftFile
            | YuvError::SummaryMismatch
            | YuvError::MalformedY4m
            | YuvError::CameraMismatch
            | YuvError::BandStillWaiting
            | YuvError::CameraInUse
            | YuvError::PartsMismatch
            | YuvError::MalformedRequest
            | YuvError::ZeroBaseSize
            | YuvError::SizeTooLarge
            | YuvError::MatrixNotAccepted
            | YuvError::WindowOutsideSource
            | YuvError::BandRowsMismatch
            | YuvError::SettingsRecorded
            | YuvError::OutputTooShort => None,
            YuvError::DestinationSizeMismatch(size)
            | YuvError::MinimumStrideSizeMismatch(size)
            | YuvError::LumaPlaneMinimumSizeMismatch(size)
            | YuvError::LumaPlaneSizeMismatch(size)
            | YuvError::UPlaneMinimumSizeMismatch(size)
            | YuvError::VPlaneMinimumSizeMismatch(size)
            | YuvError::WholeRowsMismatch(size)
            | YuvError::CarriedRowSizeMismatch(size) => Some(size),
        }
    }

    /// An answer of the library: 0 is finished work. It is proved to answer none but these numbers.
    pub(crate) fn answer(number: u32, expected: usize, received: usize) -> Result<(), YuvError> {
        let size = MismatchedSize { expected, received };
        Err(match number {
            0 => return Ok(()),
            15 => YuvError::MalformedShiftFile,
            17 => YuvError::SummaryMismatch,
            19 => YuvError::MalformedY4m,
            21 => YuvError::CameraMismatch,
            22 => YuvError::BandStillWaiting,
            23 => YuvError::CameraInUse,
            18 => YuvError::PartsMismatch,
            2 => YuvError::ZeroBaseSize,
            3 => YuvError::SizeTooLarge,
            4 => YuvError::MatrixNotAccepted,
            14 => YuvError::WindowOutsideSource,
            5 => YuvError::BandRowsMismatch,
            6 => YuvError::DestinationSizeMismatch(size),
            7 => YuvError::MinimumStrideSizeMismatch(size),
            8 => YuvError::LumaPlaneMinimumSizeMismatch(size),
            9 => YuvError::LumaPlaneSizeMismatch(size),
            10 => YuvError::UPlaneMinimumSizeMismatch(size),
            11 => YuvError::VPlaneMinimumSizeMismatch(size),
            12 => YuvError::WholeRowsMismatch(size),
            13 => YuvError::CarriedRowSizeMismatch(size),
            20 => YuvError::SettingsRecorded,
            16 => YuvError::OutputTooShort,
            _ => YuvError::MalformedRequest,
        })
    }
}

impl Display for YuvError {
    fn fmt(&self, f: &mut Formatter<'_>) -> std::fmt::Result {
        let what = match self {
            YuvError::MalformedShiftFile => "the layout of a shift file is broken",
            YuvError::SummaryMismatch => "the summary is too short, or not the shift file's",
            YuvError::MalformedY4m => "the text or the planes of a Y4M file break its rules",
            YuvError::CameraMismatch => "a camera number above 31, or one without an open frame",
            YuvError::BandStillWaiting => "the camera's last band still waits",
            YuvError::CameraInUse => "a frame is open at that camera number",
            YuvError::PartsMismatch => {
                "too many frames, a part outside its buffer, or shared bytes"
            }
            YuvError::MalformedRequest => "a setting has no meaning",
            YuvError::ZeroBaseSize => "width or height is 0",
            YuvError::SizeTooLarge => {
                "width or height, of the frame or of its source, is above 16384"
            }
            YuvError::MatrixNotAccepted => "kr or kb is not from 0 to 0.5",
            YuvError::WindowOutsideSource => "the window ends outside the large source",
            YuvError::BandRowsMismatch => "the band has no rows, or more than remain",
            YuvError::DestinationSizeMismatch(_) => "the source is too short",
            YuvError::MinimumStrideSizeMismatch(_) => "the source's stride is below its row",
            YuvError::LumaPlaneMinimumSizeMismatch(_) => "the stride of Y is below its row",
            YuvError::LumaPlaneSizeMismatch(_) => "Y is too short",
            YuvError::UPlaneMinimumSizeMismatch(_) => "U is too narrow or too short",
            YuvError::VPlaneMinimumSizeMismatch(_) => "V is too narrow or too short",
            YuvError::WholeRowsMismatch(_) => "a buffer is not exactly its rows long",
            YuvError::CarriedRowSizeMismatch(_) => "the carried row is too short",
            YuvError::SettingsRecorded => "a record has settings that the other form would lose",
            YuvError::OutputTooShort => "the output is too short",
        };
        write!(f, "refused {}: {what}", self.number())?;
        match self.size() {
            Some(size) => write!(
                f,
                ", expected {}, received {}",
                size.expected, size.received
            ),
            None => Ok(()),
        }
    }
}

impl Error for YuvError {}
