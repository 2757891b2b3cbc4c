//! Band calls: a frame in bands of rows, as they come from a camera.

use crate::error::YuvError;
use crate::ffi;
use crate::mode::in_default_mode;
use crate::settings::{FrameDescription, FrameOptions};

/// A frame that is being converted: what its opening fixed, and how many of its rows are done (RULES 8.1).
#[derive(Debug, Copy, Clone, PartialEq)]
pub struct FrameState {
    pub frame: FrameDescription,
    pub done: u32,
}

impl FrameState {
    /// A state with no row done. Refuses a size (2, 3) or a matrix (4); of plane strides it says nothing, the first band call does.
    pub fn open(frame: FrameDescription) -> Result<FrameState, YuvError> {
        let done = open(&frame.numbers(0, 0, 0)[3..], &frame.matrix.custom())?;
        Ok(FrameState { frame, done })
    }

    /// Converts the next `rows` rows of the frame and hands the state back with them done. Planes and carried row are those that the accepted
    /// call before left. A refusal (2 to 13) writes no byte and hands back the state that it got (RULES 8.2, 8.5, 8.9).
    ///
    /// `source` has `rows` rows, `y`, `u` and `v` are the whole planes, `carried` is at least 3 × width bytes.
    #[allow(clippy::too_many_arguments)]
    pub fn band(
        self,
        rows: u32,
        source: &[u8],
        stride: u32,
        y: &mut [u8],
        u: &mut [u8],
        v: &mut [u8],
        carried: &mut [u8],
    ) -> (FrameState, Result<(), YuvError>) {
        let frame = self.frame;
        let numbers = frame.numbers(self.done, rows, stride);
        let (done, answer) = convert(&numbers, &frame.matrix.custom(), source, y, u, v, carried);
        (FrameState { frame, done }, answer)
    }
}

/// A frame that is being converted with options: what its opening fixed, and how many of its rows are done. [`FrameStateWith::open`] makes it; it
/// may gain fields.
#[derive(Debug, Copy, Clone, PartialEq)]
#[non_exhaustive]
pub struct FrameStateWith {
    pub frame: FrameDescription,
    pub options: FrameOptions,
    pub done: u32,
}

impl FrameStateWith {
    /// As [`FrameState::open`], with the choices of `options`, which hold for all bands of the frame. Refuses a window (14) too.
    pub fn open(
        frame: FrameDescription,
        options: FrameOptions,
    ) -> Result<FrameStateWith, YuvError> {
        let numbers = frame.numbers_with(&options, 0, 0, 0);
        let done = open(&numbers[3..], &frame.matrix.custom())?;
        Ok(FrameStateWith {
            frame,
            options,
            done,
        })
    }

    /// As [`FrameState::band`], refusals also 14. The rows finished are those of [`rgbx_to_sharp_yuv_with`](crate::rgbx_to_sharp_yuv_with) with the
    /// opening's options. `source` is `rows` whole rows of the large source, from column 0 on, which have the frame's next rows in them;
    /// `carried` is at least 3 × the frame's width bytes.
    #[allow(clippy::too_many_arguments)]
    pub fn band(
        self,
        rows: u32,
        source: &[u8],
        stride: u32,
        y: &mut [u8],
        u: &mut [u8],
        v: &mut [u8],
        carried: &mut [u8],
    ) -> (FrameStateWith, Result<(), YuvError>) {
        let frame = self.frame;
        let numbers = frame.numbers_with(&self.options, self.done, rows, stride);
        let (done, answer) = convert(&numbers, &frame.matrix.custom(), source, y, u, v, carried);
        (FrameStateWith { done, ..self }, answer)
    }
}

/// The library's opening on these numbers: the rows done.
fn open(numbers: &[u32], custom: &[f32; 2]) -> Result<u32, YuvError> {
    let mut told = [0; 3];
    // SAFETY: each pointer is that of a slice beside its own length, or of a value by itself; no two overlap, as the borrows say.
    let number = in_default_mode(|| unsafe {
        ffi::segvartin_call_open(numbers.as_ptr(), numbers.len(), custom, &mut told)
    });
    let [expected, received, done] = told;
    YuvError::answer(number, expected, received)?;
    Ok(done as u32)
}

/// The library's band call on these numbers: the rows done after it, and its answer.
fn convert(
    numbers: &[u32],
    custom: &[f32; 2],
    source: &[u8],
    y: &mut [u8],
    u: &mut [u8],
    v: &mut [u8],
    carried: &mut [u8],
) -> (u32, Result<(), YuvError>) {
    let mut told = [0; 3];
    // SAFETY: each pointer is that of a slice beside its own length, or of a value by itself; no two overlap, as the borrows say.
    let number = in_default_mode(|| unsafe {
        ffi::segvartin_call_band(
            numbers.as_ptr(),
            numbers.len(),
            custom,
            source.as_ptr(),
            source.len(),
            y.as_mut_ptr(),
            y.len(),
            u.as_mut_ptr(),
            u.len(),
            v.as_mut_ptr(),
            v.len(),
            carried.as_mut_ptr(),
            carried.len(),
            &mut told,
        )
    });
    let [expected, received, done] = told;
    (done as u32, YuvError::answer(number, expected, received))
}
