//! From the bytes of standard input to those of standard output: RULES 9.1, 9.2, 9.3.

use crate::frame::{Frame, frame};
use crate::refusals::{Refusal, refuse_if};
use crate::settings::{
    Settings, TableRounding, channels_of, chroma_height, chroma_width, matrix_of, range_of,
    sampling_of, transfer_of,
};
use crate::window::Window;

const HEADER: usize = 9;

/// RULES 9.2: in the program also w × h is bounded.
const MOST_PIXELS: u64 = 16_384;

/// RULES 9.3.
pub fn program(input: &[u8]) -> Vec<u8> {
    match planes(input) {
        Ok(bytes) => bytes,
        Err(refusal) => format!("refused {}\n", refusal.number).into_bytes(),
    }
}

fn planes(input: &[u8]) -> Result<Vec<u8>, Refusal> {
    let (w, h, settings, source) = read(input).ok_or(Refusal {
        number: 1,
        expected: 0,
        received: 0,
    })?;
    let (width, height) = (u64::from(w), u64::from(h));
    // 2 comes before 3; with 2 passed, 3 of the program covers 3 of the frame call.
    refuse_if(w == 0 || h == 0, 2)?;
    refuse_if(width * height > MOST_PIXELS, 3)?;
    let call = Frame {
        w: u32::from(w),
        h: u32::from(h),
        // The request is the whole source.
        window: Window::whole(u32::from(w), u32::from(h)),
        settings,
        // At most 16,384 × 4.
        source_stride: (width * settings.channels.bytes()) as u32,
        y_stride: u32::from(w),
        u_stride: chroma_width(width) as u32,
        v_stride: chroma_width(width) as u32,
    };
    let chroma = chroma_width(width) * chroma_height(settings.sampling, height);
    let mut y = vec![0; (width * height) as usize];
    let mut u = vec![0; chroma as usize];
    let mut v = vec![0; chroma as usize];
    frame(&call, source, &mut y, &mut u, &mut v)?;
    Ok([y, u, v].concat())
}

/// RULES 9.1. None: 1.
fn read(input: &[u8]) -> Option<(u16, u16, Settings, &[u8])> {
    let (header, source) = input.split_at_checked(HEADER)?;
    let settings = Settings {
        channels: channels_of(header[4])?,
        sampling: sampling_of(header[5])?,
        range: range_of(header[6])?,
        matrix: matrix_of(header[7])?,
        transfer: transfer_of(header[8])?,
        // The header has no code for it.
        rounding: TableRounding::Truncated,
    };
    let w = u16::from_le_bytes([header[0], header[1]]);
    let h = u16::from_le_bytes([header[2], header[3]]);
    Some((w, h, settings, source))
}
