//! The stored form of a list of calls, for a reader without Rust: numbers of four bytes, low byte
//! first, and buffers as blocks; and the digest of a buffer that a call left. vectors/README.md has
//! it field by field.

use model::settings::{
    channels_of, code_of, matrix_of, range_of, rounding_of, sampling_of, transfer_of,
};
use model::{Frame, Settings, Window, YuvStandardMatrix};

#[derive(Default)]
pub struct Stored(pub Vec<u8>);

/// The code of a Custom matrix, which the program's codes do not have.
const CUSTOM: u32 = 6;

/// RULES 11.7: the codes of a frame's sampling, range, matrix and transfer.
pub fn settings_codes(settings: &Settings) -> [u32; 4] {
    let has = "a code for every setting";
    [
        code_of(settings.sampling, sampling_of).expect(has),
        code_of(settings.range, range_of).expect(has),
        code_of(settings.matrix, matrix_of).unwrap_or(CUSTOM),
        code_of(settings.transfer, transfer_of).expect(has),
    ]
}

/// RULES 10.9: the sixteen numbers of a frame, and kr and kb where they are looked at.
pub fn frame_numbers(frame: &Frame) -> ([u32; 16], Option<[f32; 2]>) {
    let has = "a code for every setting";
    let (settings, window) = (&frame.settings, &frame.window);
    let [sampling, range, matrix, transfer] = settings_codes(settings);
    let custom = match settings.matrix {
        YuvStandardMatrix::Custom(kr, kb) => Some([kr, kb]),
        _ => None,
    };
    let numbers = [
        frame.source_stride,
        frame.w,
        frame.h,
        code_of(settings.channels, channels_of).expect(has),
        sampling,
        range,
        matrix,
        transfer,
        frame.y_stride,
        frame.u_stride,
        frame.v_stride,
        code_of(settings.rounding, rounding_of).expect(has),
        window.left,
        window.top,
        window.source_width,
        window.source_height,
    ];
    (numbers, custom)
}

impl Stored {
    pub fn numbers(&mut self, numbers: &[u32]) {
        for number in numbers {
            self.0.extend(number.to_le_bytes());
        }
    }

    pub fn lengths<const N: usize>(&mut self, lengths: [usize; N]) {
        self.numbers(&lengths.map(|length| length as u32));
    }

    /// The code of each setting but the rounding, and after that of the matrix the bits of kr and kb,
    /// both 0 where it is not Custom.
    fn settings(&mut self, settings: &Settings) {
        let (kr, kb) = match settings.matrix {
            YuvStandardMatrix::Custom(kr, kb) => (kr, kb),
            _ => (0.0, 0.0),
        };
        let has = "a code for every setting";
        self.numbers(&[
            code_of(settings.channels, channels_of).expect(has),
            code_of(settings.sampling, sampling_of).expect(has),
            code_of(settings.range, range_of).expect(has),
            code_of(settings.matrix, matrix_of).unwrap_or(CUSTOM),
            kr.to_bits(),
            kb.to_bits(),
            code_of(settings.transfer, transfer_of).expect(has),
        ]);
    }

    /// Width, height, settings, strides of Y, U, V, the rounding, and last the window.
    pub fn frame(
        &mut self,
        (w, h): (u32, u32),
        window: &Window,
        settings: &Settings,
        strides: [u32; 3],
    ) {
        self.numbers(&[w, h]);
        self.settings(settings);
        self.numbers(&strides);
        let rounding = code_of(settings.rounding, rounding_of);
        self.numbers(&[rounding.expect("a code for every rounding")]);
        self.numbers(&[window.left, window.top]);
        self.numbers(&[window.source_width, window.source_height]);
    }

    /// The number of bytes of the block, then these.
    pub fn block(&mut self, buffer: &[u8]) {
        let block = block(buffer);
        self.lengths([block.len()]);
        self.0.extend(block);
    }
}

/// The shortest block that makes the buffer if it is repeated: byte i of the buffer is byte
/// i mod n of a block of n bytes.
fn block(buffer: &[u8]) -> &[u8] {
    if buffer.is_empty() {
        return buffer;
    }
    // border[i]: the longest proper prefix of the first i + 1 bytes that they also end with.
    let mut border = vec![0; buffer.len()];
    for i in 1..buffer.len() {
        let mut length: usize = border[i - 1];
        while length > 0 && buffer[i] != buffer[length] {
            length = border[length - 1];
        }
        border[i] = length + usize::from(buffer[i] == buffer[length]);
    }
    &buffer[..buffer.len() - border[buffer.len() - 1]]
}

/// A buffer of this length made of a block.
pub fn repeated(block: &[u8], length: usize) -> Vec<u8> {
    block.iter().copied().cycle().take(length).collect()
}

/// The CRC-32 of zlib and PNG.
fn crc32(bytes: &[u8]) -> u32 {
    !bytes.iter().fold(!0, |crc, byte| {
        (0..8).fold(crc ^ u32::from(*byte), |crc, _| {
            (crc >> 1) ^ (if crc & 1 == 1 { 0xedb8_8320 } else { 0 })
        })
    })
}

/// ` y=89abcdef`: the name of a buffer and its digest, as they are printed.
pub fn digest(name: &str, buffer: &[u8]) -> String {
    format!(" {name}={:08x}", crc32(buffer))
}
