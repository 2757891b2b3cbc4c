//! The front desk: RULES 16.1 and on, and its three calls by numbers, RULES 10.10. It was written from the request and
//! its readings, and no definition, proof or code of `crates` was looked at for it.
//!
//! A buffer of which only the length is told has no bytes to mark: whether two parts overlap is asked of the first
//! byte of each. Offsets and lengths are added in `u128`, where no sum wraps.

use crate::bands::FrameState;
use crate::convoy::described;
use crate::refusals::{Answer, Refusal, refuse_if, size_matrix_and_window};
use crate::settings::{
    YuvStandardMatrix, channels_of, code_of, matrix_of, range_of, rounding_of, sampling_of,
    transfer_of,
};
use crate::shift::Part;

/// RULES 16.1: the camera numbers are those below it.
pub const CAMERAS: u32 = 32;

/// RULES 10.10: the numbers, binary32 numbers and numbers of parts that a camera has.
pub const NUMBERS: usize = 19;
pub const CUSTOMS: usize = 2;
pub const PARTS: usize = 10;

/// RULES 10.10: all of them, and where the camera to be asked first stands among the numbers.
pub const ALL_NUMBERS: usize = NUMBERS * CAMERAS as usize + 1;
pub const ALL_CUSTOMS: usize = CUSTOMS * CAMERAS as usize;
pub const ALL_PARTS: usize = PARTS * CAMERAS as usize;
pub const FIRST: usize = ALL_NUMBERS - 1;

/// RULES 16.1: rows that a camera delivered, and where they stand in the source.
#[derive(Clone, Copy, Debug, PartialEq)]
pub struct Band {
    pub rows: u32,
    pub stride: u32,
    pub part: Part,
}

/// RULES 16.1: an open frame, its parts of the buffers of Y, U, V and carried rows, and the band that waits.
#[derive(Clone, Copy, Debug, PartialEq)]
pub struct OpenFrame {
    pub state: FrameState,
    pub parts: [Part; 4],
    pub band: Option<Band>,
}

/// RULES 16.1.
#[derive(Clone, Copy, Debug, PartialEq)]
pub struct Desk {
    pub cameras: [Option<OpenFrame>; CAMERAS as usize],
    /// Which camera is asked first at the next step. It counts modulo 32.
    pub first: u32,
}

/// The buffers lent to a step.
pub struct Buffers<'a> {
    pub source: &'a [u8],
    pub y: &'a mut [u8],
    pub u: &'a mut [u8],
    pub v: &'a mut [u8],
    pub carried: &'a mut [u8],
}

impl Part {
    /// RULES 15.1.
    fn has(self, byte: u64) -> bool {
        byte >= self.offset && u128::from(byte) < u128::from(self.offset) + u128::from(self.length)
    }

    /// RULES 15.1: where two parts have a byte in common, the first byte of one of them is of both.
    fn overlaps(self, other: Part) -> bool {
        [self.offset, other.offset]
            .iter()
            .any(|byte| self.has(*byte) && other.has(*byte))
    }
}

impl Desk {
    /// RULES 16.1.
    pub const FRESH: Desk = Desk {
        cameras: [None; CAMERAS as usize],
        first: 0,
    };

    /// RULES 16.2. None: numbers without a meaning, which is 1, directly before 2. Parts and lengths are those of Y, U,
    /// V and carried rows.
    pub fn open(
        &mut self,
        camera: u32,
        frame: Option<FrameState>,
        parts: [Part; 4],
        lengths: [u64; 4],
    ) -> Answer {
        refuse_if(camera >= CAMERAS, 21)?;
        let place = camera as usize;
        refuse_if(self.cameras[place].is_some(), 23)?;
        let mut lent = parts.iter().zip(lengths);
        let outside = lent.any(|(part, length)| !part.is_inside(length));
        let taken = |open: &OpenFrame| parts.iter().zip(open.parts).any(|(a, b)| a.overlaps(b));
        refuse_if(outside || self.cameras.iter().flatten().any(taken), 18)?;
        refuse_if(frame.is_none(), 1)?;
        if let Some(frame) = frame {
            size_matrix_and_window(frame.w, frame.h, &frame.settings, &frame.window)?;
            self.cameras[place] = Some(OpenFrame {
                state: FrameState { done: 0, ..frame },
                parts,
                band: None,
            });
        }
        Ok(())
    }

    /// RULES 16.3.
    pub fn offer(&mut self, camera: u32, band: Band, source: u64) -> Answer {
        let place = self.cameras.get_mut(camera as usize);
        let Some(open) = place.and_then(Option::as_mut) else {
            return refuse_if(true, 21);
        };
        refuse_if(open.band.is_some(), 22)?;
        refuse_if(!band.part.is_inside(source), 18)?;
        open.band = Some(band);
        Ok(())
    }

    /// RULES 16.4: which camera was served, and what its band was answered. None: no band waited.
    pub fn step(&mut self, lent: Buffers) -> Option<(u32, Answer)> {
        let round = (0..CAMERAS).map(|turn| (self.first % CAMERAS + turn) % CAMERAS);
        let waits = |camera: &u32| {
            let open = self.cameras[*camera as usize];
            open.is_some_and(|open| open.band.is_some())
        };
        let camera = round.into_iter().find(waits)?;
        let place = &mut self.cameras[camera as usize];
        let mut open = (*place)?;
        let band = open.band.take()?;
        let answer = open.serve(band, lent);
        // RULES 16.4: once its last row is done the number is free.
        *place = (open.state.done < open.state.h).then_some(open);
        self.first = (camera + 1) % CAMERAS;
        Some((camera, answer))
    }
}

impl OpenFrame {
    /// RULES 16.4: the band call on the frame's parts.
    fn serve(&mut self, band: Band, lent: Buffers) -> Answer {
        let [y, u, v, carried] = self.parts;
        let outside = [
            (band.part, lent.source.len()),
            (y, lent.y.len()),
            (u, lent.u.len()),
            (v, lent.v.len()),
            (carried, lent.carried.len()),
        ]
        .into_iter()
        .any(|(part, length)| !part.is_inside(length as u64));
        refuse_if(outside, 18)?;
        let (state, answer) = self.state.band(
            band.rows,
            &lent.source[band.part.places()],
            band.stride,
            &mut lent.y[y.places()],
            &mut lent.u[u.places()],
            &mut lent.v[v.places()],
            &mut lent.carried[carried.places()],
        );
        self.state = state;
        answer
    }
}

/// RULES 10.10: the desk as the caller keeps it.
#[derive(Clone, Copy, Debug, PartialEq)]
pub struct DeskNumbers {
    pub numbers: [u32; ALL_NUMBERS],
    pub customs: [f32; ALL_CUSTOMS],
    pub parts: [u64; ALL_PARTS],
}

/// RULES 10.10: what a call returns and tells: number, expected, received, and of a step whether a camera was served,
/// and which.
pub type Told = [u64; 5];

fn told(answer: Answer, served: Option<u32>) -> Told {
    let (number, expected, received) = match answer {
        Ok(()) => (0, 0, 0),
        Err(Refusal {
            number,
            expected,
            received,
        }) => (u64::from(number), expected, received),
    };
    let [is_served, camera] = served.map_or([0, 0], |camera| [1, u64::from(camera)]);
    [number, expected, received, is_served, camera]
}

fn part(numbers: &[u64], k: usize) -> Part {
    Part {
        offset: numbers[2 * k],
        length: numbers[2 * k + 1],
    }
}

impl DeskNumbers {
    /// RULES 10.10: all zeros.
    pub const FRESH: DeskNumbers = DeskNumbers {
        numbers: [0; ALL_NUMBERS],
        customs: [0.0; ALL_CUSTOMS],
        parts: [0; ALL_PARTS],
    };

    /// The desk that these numbers say. Any numbers say one.
    pub fn desk(&self) -> Desk {
        Desk {
            cameras: std::array::from_fn(|camera| self.open_frame(camera)),
            first: self.numbers[FIRST],
        }
    }

    fn open_frame(&self, camera: usize) -> Option<OpenFrame> {
        let [kind, done, rows, stride, description @ ..] =
            *self.numbers[NUMBERS * camera..].first_chunk::<NUMBERS>()?;
        let custom = [0, 1].map(|i| self.customs[CUSTOMS * camera + i]);
        let parts = &self.parts[PARTS * camera..][..PARTS];
        let state = state_of(with_known_codes(description), custom)?;
        let band = Band {
            rows,
            stride,
            part: part(parts, 0),
        };
        matches!(kind, 1 | 2).then_some(OpenFrame {
            state: FrameState { done, ..state },
            parts: [1, 2, 3, 4].map(|k| part(parts, k)),
            band: (kind == 2).then_some(band),
        })
    }

    /// What stands at this camera's number, written anew.
    fn write(&mut self, camera: u32, open: Option<OpenFrame>) {
        let camera = camera as usize;
        let (numbers, custom, parts) = open.map_or(
            ([0; NUMBERS], [0.0; CUSTOMS], [0; PARTS]),
            OpenFrame::numbers,
        );
        self.numbers[NUMBERS * camera..][..NUMBERS].copy_from_slice(&numbers);
        self.customs[CUSTOMS * camera..][..CUSTOMS].copy_from_slice(&custom);
        self.parts[PARTS * camera..][..PARTS].copy_from_slice(&parts);
    }

    /// RULES 10.10: `segvartin_call_desk_open`.
    pub fn open(
        &mut self,
        camera: u32,
        described: &[u32],
        custom: [f32; 2],
        frame_parts: &[u64; 8],
        lengths: [u64; 4],
    ) -> Told {
        let mut desk = self.desk();
        let frame = with_defaults(described).and_then(|numbers| state_of(numbers, custom));
        let parts = [0, 1, 2, 3].map(|k| part(frame_parts, k));
        let answer = desk.open(camera, frame, parts, lengths);
        if answer.is_ok() {
            self.write(camera, desk.cameras[camera as usize]);
        }
        told(answer, None)
    }

    /// RULES 10.10: `segvartin_call_desk_offer`.
    pub fn offer(
        &mut self,
        camera: u32,
        [rows, stride]: [u32; 2],
        [offset, length, source]: [u64; 3],
    ) -> Told {
        let mut desk = self.desk();
        let band = Band {
            rows,
            stride,
            part: Part { offset, length },
        };
        let answer = desk.offer(camera, band, source);
        if answer.is_ok() {
            self.write(camera, desk.cameras[camera as usize]);
        }
        told(answer, None)
    }

    /// RULES 10.10: `segvartin_call_desk_step`.
    pub fn step(&mut self, lent: Buffers) -> Told {
        let mut desk = self.desk();
        let Some((camera, answer)) = desk.step(lent) else {
            return told(Ok(()), None);
        };
        self.write(camera, desk.cameras[camera as usize]);
        self.numbers[FIRST] = desk.first;
        told(answer, Some(camera))
    }
}

/// RULES 10.1: ten, eleven or fifteen numbers as fifteen. None: another count.
fn with_defaults(numbers: &[u32]) -> Option<[u32; 15]> {
    let [w, h] = *numbers.first_chunk()?;
    // Truncated, and the whole source.
    let defaults = [0, 0, 0, w, h];
    let missing = match numbers.len() {
        10 => &defaults[..],
        11 => &defaults[1..],
        _ => &[],
    };
    [numbers, missing].concat().try_into().ok()
}

/// RULES 10.10: in a desk that no call made a code without a meaning is 0.
fn with_known_codes(mut numbers: [u32; 15]) -> [u32; 15] {
    // Channels, sampling, range, matrix with Custom, transfer; rounding.
    for (place, last) in [(2, 3), (3, 1), (4, 1), (5, 6), (6, 3), (10, 1)] {
        if numbers[place] > last {
            numbers[place] = 0;
        }
    }
    numbers
}

/// RULES 10.1: no row is done. None: a code has no meaning.
fn state_of(description: [u32; 15], custom: [f32; 2]) -> Option<FrameState> {
    // The band has a stride of its own.
    let numbers = [&[0][..], &description].concat();
    let frame = described(&numbers, custom)?;
    Some(FrameState {
        w: frame.w,
        h: frame.h,
        window: frame.window,
        settings: frame.settings,
        y_stride: frame.y_stride,
        u_stride: frame.u_stride,
        v_stride: frame.v_stride,
        done: 0,
    })
}

fn code<T: PartialEq>(setting: T, of: fn(u8) -> Option<T>) -> u32 {
    code_of(setting, of).expect("a code for every setting but Custom")
}

impl OpenFrame {
    /// RULES 10.10.
    fn numbers(self) -> ([u32; NUMBERS], [f32; CUSTOMS], [u64; PARTS]) {
        let FrameState {
            w,
            h,
            window,
            settings,
            y_stride,
            u_stride,
            v_stride,
            done,
        } = self.state;
        let (matrix, custom) = match settings.matrix {
            YuvStandardMatrix::Custom(kr, kb) => (6, [kr, kb]),
            named => (code(named, matrix_of), [0.0, 0.0]),
        };
        let none = Band {
            rows: 0,
            stride: 0,
            part: Part {
                offset: 0,
                length: 0,
            },
        };
        let band = self.band.unwrap_or(none);
        let numbers = [
            1 + u32::from(self.band.is_some()),
            done,
            band.rows,
            band.stride,
            w,
            h,
            code(settings.channels, channels_of),
            code(settings.sampling, sampling_of),
            code(settings.range, range_of),
            matrix,
            code(settings.transfer, transfer_of),
            y_stride,
            u_stride,
            v_stride,
            code(settings.rounding, rounding_of),
            window.left,
            window.top,
            window.source_width,
            window.source_height,
        ];
        let [y, u, v, carried] = self.parts;
        let both = |part: Part| [part.offset, part.length];
        let parts = [band.part, y, u, v, carried].map(both);
        let mut all = [0; PARTS];
        all.copy_from_slice(parts.as_flattened());
        (numbers, custom, all)
    }
}

#[cfg(test)]
mod tests;
