//! A desk for 32 cameras, which deliver bands when they can: RULES 16.1 to 16.6.

use crate::convoy::BufferPart;
use crate::error::YuvError;
use crate::ffi;
use crate::mode::in_default_mode;
use crate::settings::{FrameDescription, FrameOptions};
use std::error::Error;
use std::fmt::{Display, Formatter};

/// Cameras of a desk, by numbers from 0 on.
pub const CAMERAS: u32 = 32;

/// The numbers of a camera, and behind all of them who is asked first; its kr and kb; its parts.
const NUMBERS: usize = 19 * CAMERAS as usize + 1;
const CUSTOMS: usize = 2 * CAMERAS as usize;
const PARTS: usize = 10 * CAMERAS as usize;

/// Where a frame at a desk stands in the buffers. Each step asks these lengths: Y, U and V exactly their stride times their rows, the carried row at
/// least 3 × width bytes.
#[derive(Debug, Copy, Clone, PartialEq, Eq, Default)]
pub struct DeskParts {
    pub y: BufferPart,
    pub u: BufferPart,
    pub v: BufferPart,
    pub carried: BufferPart,
}

/// How long the buffers are.
#[derive(Debug, Copy, Clone, PartialEq, Eq, Default)]
pub struct DeskLengths {
    pub y: usize,
    pub u: usize,
    pub v: usize,
    pub carried: usize,
}

/// The refusal of a band at its step.
#[derive(Debug, Copy, Clone, Eq, PartialEq)]
pub struct DeskError {
    /// Whose band it was.
    pub camera: u32,
    pub error: YuvError,
}

impl Display for DeskError {
    fn fmt(&self, f: &mut Formatter<'_>) -> std::fmt::Result {
        write!(f, "camera {}: {}", self.camera, self.error)
    }
}

impl Error for DeskError {
    fn source(&self) -> Option<&(dyn Error + 'static)> {
        Some(&self.error)
    }
}

/// For `?` where the camera does not matter.
impl From<DeskError> for YuvError {
    fn from(error: DeskError) -> YuvError {
        error.error
    }
}

/// A desk where up to 32 cameras share the converter. A camera [opens](Desk::open) a frame at its number and [offers](Desk::offer) its bands one at
/// a time; a [step](Desk::step) serves one band, that of the next camera with a band waiting, by number, going round. Planes, carried rows and bands
/// are parts of five buffers that all cameras share. [`Desk::default`] has no frame open.
///
/// - A band that is refused at its step uses that step: it is dropped, no byte is written, the frame stays open with the rows that it had, and the
///   next camera is asked first. The band may be offered again.
/// - A number is free again with the step that does the last row of its frame, and so are the frame's parts: another frame can be opened there
///   before the next step.
/// - There is no call that gives a frame up. One whose bands can only be refused, since a plane's part is too short for it, say, keeps its number
///   and its parts as long as the desk is used. Who wants them back begins a new desk.
///
/// Where the desk began as [`Desk::default`] and each call gets it as the call before left it, a camera with a band waiting is served within 32
/// steps, whatever the others open and offer. Where the bytes of planes, carried rows and waiting bands also come back as they were left, the planes
/// of each camera are, up to the step of its last row, those of its own accepted bands converted alone. Buffers may move and be of other lengths
/// from call to call. A desk that no call left is answered too.
///
/// The fields are the numbers of RULES 10.10: of camera c 19 numbers from 19 × c on, of which the first is 0 where the number is free, 1 where a
/// frame is open and 2 where a band of it waits, and the second the rows done; its kr and kb; and offset and length of its band and of its parts.
///
/// ```
/// use segvartin::*;
///
/// let pixels = FrameDescription {
///     width: 1,
///     height: 2,
///     channels: YuvSourceChannels::Rgb,
///     sampling: YuvChromaSubsampling::Yuv422,
///     range: YuvRange::Full,
///     matrix: YuvStandardMatrix::Bt601,
///     transfer: SharpYuvGammaTransfer::Srgb,
///     y_stride: 1,
///     u_stride: 1,
///     v_stride: 1,
/// };
/// let (mut y, mut u, mut v, mut carried) = ([0; 4], [0; 4], [0; 4], [0; 6]);
/// let lengths = DeskLengths { y: 4, u: 4, v: 4, carried: 6 };
/// let mut desk = Desk::default();
/// for camera in 0..2 {
///     let plane = BufferPart::new(2 * camera, 2);
///     let parts = DeskParts { y: plane, u: plane, v: plane, carried: BufferPart::new(3 * camera, 3) };
///     desk.open(camera as u32, &pixels, &FrameOptions::of(&pixels), &parts, &lengths)?;
/// }
/// let source = [255, 0, 0, 0, 255, 0]; // red and green
/// desk.offer(1, 1, 3, BufferPart::new(0, 3), source.len())?; // camera 1: one row, red
/// desk.offer(0, 2, 3, BufferPart::new(0, 6), source.len())?; // camera 0: both of its rows
/// assert_eq!(desk.step(&source, &mut y, &mut u, &mut v, &mut carried)?, Some(0));
/// assert_eq!(desk.step(&source, &mut y, &mut u, &mut v, &mut carried)?, Some(1));
/// assert_eq!(desk.step(&source, &mut y, &mut u, &mut v, &mut carried)?, None);
/// assert_eq!((y, u, v), ([76, 150, 76, 0], [85, 44, 85, 0], [255, 21, 255, 0]));
/// assert_eq!(desk.offer(0, 1, 3, BufferPart::new(0, 3), 6), Err(YuvError::CameraMismatch)); // its frame is finished
/// # Ok::<(), YuvError>(())
/// ```
#[derive(Debug, Clone, PartialEq)]
pub struct Desk {
    pub numbers: [u32; NUMBERS],
    pub customs: [f32; CUSTOMS],
    pub parts: [u64; PARTS],
}

impl Default for Desk {
    fn default() -> Desk {
        Desk {
            numbers: [0; NUMBERS],
            customs: [0.0; CUSTOMS],
            parts: [0; PARTS],
        }
    }
}

impl Desk {
    /// Opens a frame for a camera, with no row done: RULES 16.2. The options hold for all its bands. Refuses a number above 31 (21) or in use (23);
    /// parts (18) that reach outside buffers of these lengths or share a byte with an open frame's part of the same buffer; a size (2, 3), a matrix
    /// (4) or a window (14). A refusal leaves the desk as it is. Of strides and of the lengths of parts it asks nothing; each step does.
    ///
    /// A part of no bytes shares none, and is outside where its offset is above the buffer's length.
    pub fn open(
        &mut self,
        camera: u32,
        frame: &FrameDescription,
        options: &FrameOptions,
        parts: &DeskParts,
        lengths: &DeskLengths,
    ) -> Result<(), YuvError> {
        let described = &frame.numbers_with(options, 0, 0, 0)[3..];
        let mut frame_parts = [0; 8];
        let stand = [parts.y, parts.u, parts.v, parts.carried];
        for (pair, part) in frame_parts.chunks_exact_mut(2).zip(stand) {
            pair.copy_from_slice(&[part.offset as u64, part.length as u64]);
        }
        let lens = [lengths.y, lengths.u, lengths.v, lengths.carried].map(|length| length as u64);
        let mut told = [0; 2];
        // SAFETY: each pointer is that of a slice beside its own length, or of a value by itself; no two overlap, as the borrows say.
        let number = in_default_mode(|| unsafe {
            ffi::segvartin_call_desk_open(
                camera,
                described.as_ptr(),
                described.len(),
                &frame.matrix.custom(),
                &frame_parts,
                &lens,
                &mut self.numbers,
                &mut self.customs,
                &mut self.parts,
                &mut told,
            )
        });
        let [expected, received] = told;
        YuvError::answer(number, expected, received)
    }

    /// Offers the next band of a camera's frame, which then waits for its step: RULES 16.3. It is `rows` rows, `stride` bytes apart, in this part of
    /// a source buffer of `source_len` bytes. Refuses a number above 31 or without an open frame (21), a camera whose last band waits (22), and a
    /// part outside the buffer (18), and leaves the desk as it is. Neither the rows nor the stride are asked here; the step does. Bands may share
    /// bytes.
    pub fn offer(
        &mut self,
        camera: u32,
        rows: u32,
        stride: u32,
        source: BufferPart,
        source_len: usize,
    ) -> Result<(), YuvError> {
        let place = [source.offset, source.length, source_len].map(|number| number as u64);
        // SAFETY: each pointer is that of a value by itself; no two overlap, as the borrows say.
        let number = unsafe {
            ffi::segvartin_call_desk_offer(
                camera,
                &[rows, stride],
                &place,
                &mut self.numbers,
                &mut self.customs,
                &mut self.parts,
            )
        };
        YuvError::answer(number, 0, 0)
    }

    /// Serves one band, that of the first camera with a band waiting, from the one behind the camera last served, going round, at first from camera
    /// 0: RULES 16.4. Tells which, or none where no band waited. The band is converted as by [`FrameStateWith::band`](crate::FrameStateWith::band)
    /// on the frame's parts, or refused: 18 where a part of it or of its frame is outside the buffers as they are lent now, else 2, 3, 4, 14, 5 to
    /// 13. Either way it waits no more. No byte outside the parts of the camera's frame is written, and with a refusal none.
    ///
    /// `source` has the waiting bands in their places; `y`, `u`, `v` and `carried` have the parts of open frames as the step before left them.
    pub fn step(
        &mut self,
        source: &[u8],
        y: &mut [u8],
        u: &mut [u8],
        v: &mut [u8],
        carried: &mut [u8],
    ) -> Result<Option<u32>, DeskError> {
        let mut told = [0; 4];
        // SAFETY: each pointer is that of a slice beside its own length, or of a value by itself; no two overlap, as the borrows say.
        let number = in_default_mode(|| unsafe {
            ffi::segvartin_call_desk_step(
                source.as_ptr(),
                source.len(),
                y.as_mut_ptr(),
                y.len(),
                u.as_mut_ptr(),
                u.len(),
                v.as_mut_ptr(),
                v.len(),
                carried.as_mut_ptr(),
                carried.len(),
                &mut self.numbers,
                &mut self.customs,
                &mut self.parts,
                &mut told,
            )
        });
        let [expected, received, served, camera] = told;
        let camera = camera as u32;
        match YuvError::answer(number, expected, received) {
            Ok(()) => Ok((served != 0).then_some(camera)),
            Err(error) => Err(DeskError { camera, error }),
        }
    }
}
