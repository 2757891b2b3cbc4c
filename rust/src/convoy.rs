//! Several frames in one call, as parts of shared buffers: RULES 15.1 to 15.4.

use crate::error::YuvError;
use crate::ffi;
use crate::mode::in_default_mode;
use crate::settings::{FrameDescription, FrameOptions};
use std::error::Error;
use std::fmt::{Display, Formatter};

/// Frames of one call, at most.
pub const MAX_CONVOY: usize = 64;

/// The numbers of a frame: its stride, and its description with options.
const NUMBERS: usize = 16;

/// kr and kb.
const CUSTOMS: usize = 2;

/// Offset and length in source, Y, U and V.
const PARTS: usize = 8;

/// A part of a buffer: `length` bytes from byte `offset` on.
#[derive(Debug, Copy, Clone, PartialEq, Eq, Default)]
pub struct BufferPart {
    pub offset: usize,
    pub length: usize,
}

impl BufferPart {
    #[must_use]
    pub fn new(offset: usize, length: usize) -> BufferPart {
        BufferPart { offset, length }
    }
}

/// A frame of a convoy. [`ConvoyFrame::of`] makes it, and fields are then set by name; it may gain some.
#[derive(Debug, Copy, Clone, PartialEq)]
#[non_exhaustive]
pub struct ConvoyFrame {
    pub frame: FrameDescription,
    pub options: FrameOptions,
    /// That of the source.
    pub stride: u32,
    /// Where its source stands: exactly `stride` × the rows of the large source. Several frames may have the same bytes.
    pub source: BufferPart,
    /// Where its planes stand: exactly their stride times their rows.
    pub y: BufferPart,
    pub u: BufferPart,
    pub v: BufferPart,
}

impl ConvoyFrame {
    /// This frame with the choices of [`FrameOptions::of`]; its stride is 0, and its parts have no bytes.
    #[must_use]
    pub fn of(frame: &FrameDescription) -> ConvoyFrame {
        let none = BufferPart::default();
        ConvoyFrame {
            frame: *frame,
            options: FrameOptions::of(frame),
            stride: 0,
            source: none,
            y: none,
            u: none,
            v: none,
        }
    }
}

/// The refusal of a convoy.
#[derive(Debug, Copy, Clone, Eq, PartialEq)]
pub struct ConvoyError {
    /// How many frames are finished: the place, from 0, of the one that was refused. 0 with 18.
    pub done: usize,
    pub error: YuvError,
}

impl ConvoyError {
    /// The place of the refused frame, from 0; none with 18, which is of no single frame.
    #[must_use]
    pub fn place(&self) -> Option<usize> {
        match self.error {
            YuvError::PartsMismatch => None,
            _ => Some(self.done),
        }
    }
}

impl Display for ConvoyError {
    fn fmt(&self, f: &mut Formatter<'_>) -> std::fmt::Result {
        match self.place() {
            Some(place) => write!(f, "frame {place}: {}", self.error),
            None => self.error.fmt(f),
        }
    }
}

impl Error for ConvoyError {
    fn source(&self) -> Option<&(dyn Error + 'static)> {
        Some(&self.error)
    }
}

/// For `?` where the place does not matter.
impl From<ConvoyError> for YuvError {
    fn from(error: ConvoyError) -> YuvError {
        error.error
    }
}

/// Converts frames in order, each as [`rgbx_to_sharp_yuv_with`](crate::rgbx_to_sharp_yuv_with) on its parts of the buffers would: RULES 15.3. The
/// first that is refused (2, 3, 4, 14, 6 to 12) ends the call; the frames before it stand, and it and those behind it write no byte.
///
/// 18 is answered before any frame is begun: there are more than [`MAX_CONVOY`], a part reaches outside its buffer, or parts of two frames in `y`, in
/// `u` or in `v` share a byte. Parts in `source` may. A part of no bytes shares none, and is outside where its offset is above the buffer's length. No
/// byte outside the parts of finished frames is written, and no frames at all are finished work.
///
/// ```
/// use segvartin::*;
///
/// let pixel = FrameDescription {
///     width: 1,
///     height: 1,
///     channels: YuvSourceChannels::Rgb,
///     sampling: YuvChromaSubsampling::Yuv420,
///     range: YuvRange::Full,
///     matrix: YuvStandardMatrix::Bt601,
///     transfer: SharpYuvGammaTransfer::Srgb,
///     y_stride: 1,
///     u_stride: 1,
///     v_stride: 1,
/// };
/// let mut frames = [ConvoyFrame::of(&pixel); 2];
/// for (k, frame) in frames.iter_mut().enumerate() {
///     frame.stride = 3;
///     frame.source = BufferPart::new(3 * k, 3);
///     (frame.y, frame.u, frame.v) = (BufferPart::new(k, 1), BufferPart::new(k, 1), BufferPart::new(k, 1));
/// }
/// let red_and_green = [255, 0, 0, 0, 255, 0];
/// let (mut y, mut u, mut v) = ([0; 2], [0; 2], [0; 2]);
/// convert_convoy(&frames, &red_and_green, &mut y, &mut u, &mut v)?;
/// assert_eq!((y, u, v), ([76, 150], [85, 44], [255, 21]));
///
/// frames[1].y = frames[0].y;
/// let refused = convert_convoy(&frames, &red_and_green, &mut y, &mut u, &mut v);
/// assert_eq!(refused, Err(ConvoyError { done: 0, error: YuvError::PartsMismatch }));
/// # Ok::<(), ConvoyError>(())
/// ```
pub fn convert_convoy(
    frames: &[ConvoyFrame],
    source: &[u8],
    y: &mut [u8],
    u: &mut [u8],
    v: &mut [u8],
) -> Result<(), ConvoyError> {
    let mut numbers = [0; NUMBERS * MAX_CONVOY];
    let mut customs = [0.0; CUSTOMS * MAX_CONVOY];
    let mut parts = [0; PARTS * MAX_CONVOY];
    // The library looks at no more than these.
    let packed = frames.len().min(MAX_CONVOY);
    for (k, frame) in frames[..packed].iter().enumerate() {
        let with_options = frame.frame.numbers_with(&frame.options, 0, 0, frame.stride);
        numbers[NUMBERS * k..][..NUMBERS].copy_from_slice(&with_options[2..]);
        customs[CUSTOMS * k..][..CUSTOMS].copy_from_slice(&frame.frame.matrix.custom());
        let lent = [frame.source, frame.y, frame.u, frame.v];
        for (pair, part) in parts[PARTS * k..][..PARTS].chunks_exact_mut(2).zip(lent) {
            pair.copy_from_slice(&[part.offset as u64, part.length as u64]);
        }
    }
    let mut told = [0; 3];
    // SAFETY: each pointer is that of a slice or an array beside a length that is not above its own, or of a value by itself; no two overlap, as the
    // borrows say.
    let number = in_default_mode(|| unsafe {
        ffi::segvartin_call_convoy(
            frames.len(),
            numbers.as_ptr(),
            NUMBERS * packed,
            customs.as_ptr(),
            CUSTOMS * packed,
            parts.as_ptr(),
            PARTS * packed,
            source.as_ptr(),
            source.len(),
            y.as_mut_ptr(),
            y.len(),
            u.as_mut_ptr(),
            u.len(),
            v.as_mut_ptr(),
            v.len(),
            &mut told,
        )
    });
    let [expected, received, done] = told;
    YuvError::answer(number, expected, received).map_err(|error| ConvoyError { done, error })
}
