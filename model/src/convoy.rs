//! Convoys: RULES 15.1 and on, and the call by numbers, RULES 10.9. It was written from the request and its readings,
//! and no definition, proof or code of `crates` was looked at for it.
//!
//! Whether parts overlap is asked byte by byte: each plane's bytes are taken by one frame after the other, and none
//! may be taken twice. Offsets and lengths are added in `u128`, where no sum wraps.

use crate::frame::{Frame, frame};
use crate::refusals::{Answer, refuse_if};
use crate::settings::{
    Settings, YuvStandardMatrix, channels_of, matrix_of, range_of, rounding_of, sampling_of,
    transfer_of,
};
use crate::shift::Part;
use crate::window::Window;

/// RULES 15.2: the most frames of a convoy.
pub const MOST_FRAMES: u64 = 64;

/// RULES 10.9: numbers, binary32 numbers, and numbers of parts that a frame has.
pub const NUMBERS: usize = 16;
pub const CUSTOMS: usize = 2;
pub const PARTS: usize = 8;

/// The code of a Custom matrix.
const CUSTOM: u32 = 6;

/// RULES 15.2: a frame of a convoy, and where its source, Y, U and V stand in their buffers.
#[derive(Clone, Copy, Debug, PartialEq)]
pub struct ConvoyFrame {
    /// None: its numbers have no meaning, which is refused with 1 when it is its turn.
    pub frame: Option<Frame>,
    pub parts: [Part; 4],
}

impl Part {
    /// RULES 15.1, of a buffer of this length.
    pub(crate) fn is_inside(self, length: u64) -> bool {
        u128::from(self.offset) + u128::from(self.length) <= u128::from(length)
    }

    /// The places of the bytes of a part that is inside its buffer.
    pub(crate) fn places(self) -> std::ops::Range<usize> {
        let start = self.offset as usize;
        start..start + self.length as usize
    }
}

/// RULES 15.2: 18, of parts that are all inside: some byte of this plane is of two frames.
fn overlap(parts: impl Iterator<Item = Part>, plane: &[u8]) -> bool {
    let mut taken = vec![false; plane.len()];
    for place in parts.flat_map(Part::places) {
        if std::mem::replace(&mut taken[place], true) {
            return true;
        }
    }
    false
}

/// RULES 15.2: 18.
fn is_broken(frames: &[ConvoyFrame], buffers: [&[u8]; 4]) -> bool {
    let outside = |frame: &ConvoyFrame| {
        let mut parts = frame.parts.iter().zip(buffers);
        parts.any(|(part, buffer)| !part.is_inside(buffer.len() as u64))
    };
    let of = |plane: usize| frames.iter().map(move |frame| frame.parts[plane]);
    frames.len() as u64 > MOST_FRAMES
        || frames.iter().any(outside)
        || (1..4).any(|plane| overlap(of(plane), buffers[plane]))
}

/// RULES 15.3: the answer, and how many frames are finished, which is the place of the refused one.
pub fn convoy(
    frames: &[ConvoyFrame],
    source: &[u8],
    y: &mut [u8],
    u: &mut [u8],
    v: &mut [u8],
) -> (Answer, u64) {
    let answer = refuse_if(is_broken(frames, [source, y, u, v]), 18);
    if answer.is_err() {
        return (answer, 0);
    }
    for (one, done) in frames.iter().zip(0..) {
        let [its_source, its_y, its_u, its_v] = one.parts.map(Part::places);
        let answer = match &one.frame {
            None => refuse_if(true, 1),
            Some(f) => frame(
                f,
                &source[its_source],
                &mut y[its_y],
                &mut u[its_u],
                &mut v[its_v],
            ),
        };
        if answer.is_err() {
            return (answer, done);
        }
    }
    (Ok(()), frames.len() as u64)
}

/// RULES 10.9: what the frames of a convoy are told by.
#[derive(Clone, Copy, Debug)]
pub struct Numbers<'a> {
    pub count: u64,
    pub numbers: &'a [u32],
    pub customs: &'a [f32],
    pub parts: &'a [u64],
}

/// RULES 10.9. Numbers behind those of the last frame are not looked at.
pub fn convoy_by_numbers(
    told: &Numbers,
    source: &[u8],
    y: &mut [u8],
    u: &mut [u8],
    v: &mut [u8],
) -> (Answer, u64) {
    if told.count > MOST_FRAMES {
        return (refuse_if(true, 18), 0);
    }
    let frames: Vec<ConvoyFrame> = (0..told.count as usize).map(|k| told.frame(k)).collect();
    convoy(&frames, source, y, u, v)
}

impl Numbers<'_> {
    /// Frame k. A number of a part that is missing is 0, a missing kr or kb is NaN.
    fn frame(&self, k: usize) -> ConvoyFrame {
        let custom = |i: usize| (self.customs.get(CUSTOMS * k + i).copied()).unwrap_or(f32::NAN);
        let number = |i: usize| (self.parts.get(PARTS * k + i).copied()).unwrap_or(0);
        let part = |buffer: usize| Part {
            offset: number(2 * buffer),
            length: number(2 * buffer + 1),
        };
        let numbers = self.numbers.get(NUMBERS * k..NUMBERS * (k + 1));
        ConvoyFrame {
            frame: numbers.and_then(|numbers| described(numbers, [custom(0), custom(1)])),
            parts: [0, 1, 2, 3].map(part),
        }
    }
}

/// RULES 10.1, 10.9: the source's stride, then a description of fifteen numbers. None: a code has no meaning.
pub(crate) fn described(numbers: &[u32], [kr, kb]: [f32; 2]) -> Option<Frame> {
    let [
        source_stride,
        w,
        h,
        codes @ ..,
        y_stride,
        u_stride,
        v_stride,
        rounding,
        left,
        top,
        width,
        height,
    ] = *<&[u32; NUMBERS]>::try_from(numbers).ok()?;
    let [channels, sampling, range, matrix, transfer] = codes;
    let code = |number: u32| u8::try_from(number).ok();
    Some(Frame {
        w,
        h,
        window: Window {
            left,
            top,
            source_width: width,
            source_height: height,
        },
        settings: Settings {
            channels: channels_of(code(channels)?)?,
            sampling: sampling_of(code(sampling)?)?,
            range: range_of(code(range)?)?,
            matrix: match matrix {
                CUSTOM => YuvStandardMatrix::Custom(kr, kb),
                named => matrix_of(code(named)?)?,
            },
            transfer: transfer_of(code(transfer)?)?,
            rounding: rounding_of(code(rounding)?)?,
        },
        source_stride,
        y_stride,
        u_stride,
        v_stride,
    })
}

#[cfg(test)]
mod tests;
