//! RGB frames to planar YUV 4:2:0 and 4:2:2 over the proved library, under the names and with the argument order of yuvutils-rs's sharp path; and
//! [shift files](ShiftFile), which hold the planes of many frames, with [settings](RecordSettings) or without, with
//! [summaries](ShiftFile::build_summary) by which a frame is found in one, and [two of which](pair_shift_files) are held against each other; and
//! [Y4M files](Y4mFile), which players and encoders take. [Several frames](convert_convoy) may be parts of shared buffers, in one call; and the bands
//! of up to 32 cameras may come as they can, to a [desk](Desk) that serves one at a time.
//!
//! Every call answers finished work or one numbered refusal ([`YuvError`]), for all sizes, strides, lengths and settings; a refusal writes no
//! byte, of several frames in one call the refused one and those behind it none. The rules that fix each byte and each answer are docs/RULES.md of
//! the repository; RULES 7.1 in a comment is one of them.
//!
//! No frame or band call panics, and neither does [`convert_convoy`], nor a call of a [`Desk`], nor [`luma_counts`], which tells how many colours
//! share a luma, nor a call on files or summaries.
//! [`YuvPlanarImageMut::alloc`] makes the planes as [`Vec`]s, and [`Y4mFile::pictures`] the places of all pictures; both end as a [`Vec`] does where
//! memory does not suffice.
//!
//! The caller's floating-point mode (rounding, denormals, trapped exceptions) does not matter: each call is made in the default mode, and the
//! caller's mode and exception flags are put back as they were; calls on files and [`Desk::offer`] use no floats.
//!
//! ```
//! use segvartin::*;
//!
//! let mut image = YuvPlanarImageMut::<u8>::alloc(1, 1, YuvChromaSubsampling::Yuv420);
//! rgb_to_sharp_yuv420(&mut image, &[255, 0, 0], 3, YuvRange::Full, YuvStandardMatrix::Bt601, SharpYuvGammaTransfer::Srgb)?;
//! assert_eq!((image.y_plane.borrow(), image.u_plane.borrow(), image.v_plane.borrow()), (&[76][..], &[85][..], &[255][..]));
//! # Ok::<(), YuvError>(())
//! ```

mod bands;
mod convoy;
mod counts;
mod desk;
mod error;
mod ffi;
mod frame;
mod image;
mod mode;
mod pairs;
mod recorded;
mod settings;
mod shift;
mod summary;
mod y4m;

pub use bands::{FrameState, FrameStateWith};
pub use convoy::{BufferPart, ConvoyError, ConvoyFrame, MAX_CONVOY, convert_convoy};
pub use counts::luma_counts;
pub use desk::{CAMERAS, Desk, DeskError, DeskLengths, DeskParts};
pub use error::{MismatchedSize, YuvError};
pub use frame::*;
pub use image::{BufferStoreMut, YuvPlanarImageMut};
pub use pairs::{
    DifferingPair, PairDifference, PairError, PairReport, PairSide, YuvPlane, pair_shift_files,
};
pub use recorded::{RecordSettings, RecordedMatrix, ShiftForm};
pub use settings::{
    FrameDescription, FrameOptions, SharpYuvGammaTransfer, TableRounding, Window,
    YuvChromaSubsampling, YuvRange, YuvSourceChannels, YuvStandardMatrix,
};
pub use shift::{
    ShiftFile, ShiftRecord, ShiftRecords, move_back, move_forward, moved_back_size,
    moved_forward_size, settings_file_size, settings_record, settings_record_size, shift_file_size,
    shift_record, shift_record_size, write_settings_file, write_shift_file,
};
pub use summary::SUMMARY_ENTRY;
pub use y4m::{
    Y4mFile, Y4mPicture, Y4mPictures, write_y4m, y4m_picture, y4m_picture_size, y4m_size,
};
