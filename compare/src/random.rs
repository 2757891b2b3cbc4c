//! Random requests, the same for the same seed on every machine.

use crate::conditions;
use crate::request::{BandRequest, FrameRequest, Input, Run, Shape, shapes};
use model::settings::{channels_of, matrix_of, range_of, rounding_of, sampling_of, transfer_of};
use model::shift::RecordRequest;
use model::{
    Frame, FrameState, Settings, TableRounding, Window, YuvChromaSubsampling, YuvStandardMatrix,
};

/// splitmix64.
pub struct Random(u64);

impl Random {
    /// Each case of each kind has numbers of its own, so that it can be made again alone.
    pub fn new(seed: u64, kind: u64, case: u64) -> Random {
        let kind = Random(kind).next();
        let case = Random(case).next();
        Random(seed ^ kind ^ case.rotate_left(32))
    }

    pub fn next(&mut self) -> u64 {
        self.0 = self.0.wrapping_add(0x9e37_79b9_7f4a_7c15);
        let mut z = self.0;
        z = (z ^ (z >> 30)).wrapping_mul(0xbf58_476d_1ce4_e5b9);
        z = (z ^ (z >> 27)).wrapping_mul(0x94d0_49bb_1331_11eb);
        z ^ (z >> 31)
    }

    pub fn below(&mut self, n: u64) -> u64 {
        self.next() % n
    }

    pub fn one_in(&mut self, n: u64) -> bool {
        self.below(n) == 0
    }

    pub fn from(&mut self, least: u32, most: u32) -> u32 {
        least + self.below(u64::from(most - least) + 1) as u32
    }

    pub fn pick<T: Copy>(&mut self, list: &[T]) -> T {
        list[self.below(list.len() as u64) as usize]
    }

    pub fn bytes(&mut self, length: usize) -> Vec<u8> {
        let mut bytes = Vec::with_capacity(length + 7);
        while bytes.len() < length {
            bytes.extend(self.next().to_le_bytes());
        }
        bytes.truncate(length);
        bytes
    }
}

/// One of the values that the program's codes 0 to count − 1 mean.
fn coded<T>(random: &mut Random, count: u64, of: fn(u8) -> Option<T>) -> T {
    of(random.below(count) as u8).expect("a code with a meaning")
}

/// All but the rounding, which is Truncated.
fn settings(random: &mut Random) -> Settings {
    Settings {
        channels: coded(random, 4, channels_of),
        sampling: coded(random, 2, sampling_of),
        range: coded(random, 2, range_of),
        matrix: if random.one_in(3) {
            let (kr, kb) = accepted_pair(random);
            YuvStandardMatrix::Custom(kr, kb)
        } else {
            coded(random, 6, matrix_of)
        },
        transfer: coded(random, 4, transfer_of),
        rounding: TableRounding::Truncated,
    }
}

/// From 0 to 0.5. Multiples of 2^-14 give weights that are exact halves before rounding.
fn accepted_k(random: &mut Random) -> f32 {
    let least = f32::from_bits(1);
    match random.below(5) {
        0 => random.pick(&[0.0, 0.5, -0.0, least, f32::MIN_POSITIVE, 0.5f32.next_down()]),
        1 => random.pick(&[0.299, 0.114, 0.2126, 0.0722, 0.30, 0.11, 0.212, 0.087]),
        2 => random.from(0, 8_192) as f32 / 16_384.0,
        3 => 2f32.powi(-(random.from(1, 20) as i32)),
        _ => random.from(0, 1 << 24) as f32 / (1 << 25) as f32,
    }
}

/// kr and kb. Half of the pairs put one of the nine weights next to a half, where the order of
/// the f32 operations decides.
pub fn accepted_pair(random: &mut Random) -> (f32, f32) {
    let (range_y, range_uv) = random.pick(&[(255.0, 255.0), (219.0, 224.0)]);
    let half = (f64::from(random.from(0, 4_095)) + 0.5) / 8_192.0;
    let (luma, chroma) = (half * 255.0 / range_y, half * 255.0 / range_uv * 2.0);
    let other = f64::from(accepted_k(random));
    let (kr, kb) = match random.below(7) {
        0 => (luma, other),
        1 => (other, luma),
        2 => (other, 1.0 - other - luma),
        3 => (chroma * (1.0 - other), other),
        4 => (other, chroma * (1.0 - other)),
        5 => (1.0 - other - chroma * (1.0 - other), other),
        _ => (other, 1.0 - other - chroma * (1.0 - other)),
    };
    let mut nearby = |k: f64| {
        let k = k as f32;
        random.pick(&[k.next_down().next_down(), k.next_down(), k, k.next_up()])
    };
    let near = (nearby(kr), nearby(kb));
    let inside = |k: f32| (0.0..=0.5).contains(&k);
    if random.one_in(2) && inside(near.0) && inside(near.1) {
        near
    } else {
        (accepted_k(random), accepted_k(random))
    }
}

/// Any accepted float: the ends and what is next to them, subnormals, tiny ones, and any bits.
fn any_accepted_k(random: &mut Random) -> f32 {
    const HALF: u32 = 0x3f00_0000;
    let below_half = f32::from_bits(HALF - random.from(0, 99));
    let subnormal = f32::from_bits(random.from(1, 0x007f_ffff));
    let any = f32::from_bits(random.from(0, HALF));
    let usual = accepted_k(random);
    random.pick(&[0.0, -0.0, 0.5, below_half, subnormal, any, usual, usual])
}

/// kr and kb of any kind that is accepted.
pub fn any_accepted_pair(random: &mut Random) -> (f32, f32) {
    if random.one_in(2) {
        accepted_pair(random)
    } else {
        (any_accepted_k(random), any_accepted_k(random))
    }
}

/// kr and kb of which at least one is refused.
pub fn refused_pair(random: &mut Random) -> (f32, f32) {
    let (good, bad) = (accepted_k(random), refused_k(random));
    random.pick(&[(good, bad), (bad, good), (bad, bad)])
}

/// A kr or kb that is no number, or just or far outside.
fn refused_k(random: &mut Random) -> f32 {
    let least = f32::from_bits(1);
    let above = 0.5f32.next_up();
    let infinity = f32::INFINITY;
    random.pick(&[
        f32::NAN,
        -f32::NAN,
        above,
        -least,
        -0.25,
        0.75,
        1.0,
        infinity,
        -infinity,
    ])
}

fn size(random: &mut Random, side: u32) -> (u32, u32) {
    if random.one_in(4_000) {
        return (1_920, 1_080);
    }
    if random.one_in(200) {
        let long = random.pick(&[1_000, 4_095, 16_383, 16_384]);
        let thin = random.from(1, 3);
        return random.pick(&[(long, thin), (thin, long)]);
    }
    let side = if random.one_in(4) { side.min(4) } else { side };
    (random.from(1, side), random.from(1, side))
}

fn padding(random: &mut Random) -> u32 {
    if random.one_in(2) {
        0
    } else {
        random.from(1, 9)
    }
}

/// Source bytes of several kinds: extremes, near each other, one colour, a slope, noise.
pub fn source_bytes(random: &mut Random, length: usize) -> Vec<u8> {
    let base = random.next() as u8;
    let colour = random.bytes(3);
    let step = random.from(1, 7);
    let kind = random.below(5);
    let mut bytes = random.bytes(length);
    for (byte, i) in bytes.iter_mut().zip(0u32..) {
        *byte = match kind {
            0 => (*byte & 1) * 255,
            1 => base.wrapping_add(*byte & 3),
            2 => colour[i as usize % 3],
            3 => base.wrapping_add((i / step) as u8),
            _ => *byte,
        };
    }
    bytes
}

/// A frame that is accepted: strides wide enough, buffers exactly as long as they must be. Truncated,
/// all of its source: the stored sequences take as many numbers of their seeds as this does.
pub fn accepted_frame(random: &mut Random, side: u32) -> FrameRequest {
    let settings = settings(random);
    let size = size(random, side);
    frame_of_size(random, settings, size)
}

fn frame_of_size(random: &mut Random, settings: Settings, (w, h): (u32, u32)) -> FrameRequest {
    let shapes = shapes(w, h, (w, h), &settings);
    let strides = shapes.map(|shape| shape.row as u32 + padding(random));
    let [source, y, u, v] = [0, 1, 2, 3].map(|i| strides[i] as usize * shapes[i].rows as usize);
    FrameRequest {
        frame: Frame {
            w,
            h,
            window: Window::whole(w, h),
            settings,
            source_stride: strides[0],
            y_stride: strides[1],
            u_stride: strides[2],
            v_stride: strides[3],
        },
        lent: [
            source_bytes(random, source),
            random.bytes(y),
            random.bytes(u),
            random.bytes(v),
        ],
    }
}

/// The same with either rounding, and four of five as a rectangle of a larger source.
fn any_frame(random: &mut Random, side: u32) -> FrameRequest {
    let mut request = accepted_frame(random, side);
    request.frame.settings.rounding = coded(random, 2, rounding_of);
    if !random.one_in(5) {
        put_in_source(random, &mut request);
    }
    request
}

/// An accepted frame of 4:2:0 with either rounding, and four of five in a larger source.
pub fn frame_420(random: &mut Random, side: u32) -> FrameRequest {
    frame_in(random, side, Some(YuvChromaSubsampling::Yuv420))
}

/// One that is not refused, in this sampling or in any.
pub fn frame_in(
    random: &mut Random,
    side: u32,
    sampling: Option<YuvChromaSubsampling>,
) -> FrameRequest {
    let settings = settings_in(random, sampling);
    let size = size(random, side);
    frame_with(random, settings, size)
}

/// One that is not refused, of sides up to this, in any sampling.
pub fn small_frame(random: &mut Random, side: u32) -> FrameRequest {
    let settings = settings_in(random, None);
    let size = (random.from(1, side), random.from(1, side));
    frame_with(random, settings, size)
}

/// Another of the same size and sampling.
pub fn frame_like(random: &mut Random, frame: &Frame) -> FrameRequest {
    let settings = settings_in(random, Some(frame.settings.sampling));
    frame_with(random, settings, (frame.w, frame.h))
}

fn settings_in(random: &mut Random, sampling: Option<YuvChromaSubsampling>) -> Settings {
    let mut settings = settings(random);
    settings.sampling = sampling.unwrap_or(settings.sampling);
    settings.rounding = coded(random, 2, rounding_of);
    settings
}

fn frame_with(random: &mut Random, settings: Settings, size: (u32, u32)) -> FrameRequest {
    let mut request = frame_of_size(random, settings, size);
    if !random.one_in(5) {
        put_in_source(random, &mut request);
    }
    request
}

/// Planes that a record can be made of, of any size, and their strides. The crossing is 0.
pub fn planes(
    random: &mut Random,
    side: u32,
    settings: Option<[u32; 4]>,
) -> (RecordRequest, [Vec<u8>; 3]) {
    let (w, h) = size(random, side);
    let shapes = plane_shapes(settings, w, h);
    let strides = shapes.map(|shape| shape.row as u32 + padding(random));
    let planes = [0, 1, 2].map(|i| random.bytes(strides[i] as usize * shapes[i].rows as usize));
    let request = RecordRequest {
        crossing: 0,
        w,
        h,
        y_stride: strides[0],
        u_stride: strides[1],
        v_stride: strides[2],
        settings,
    };
    (request, planes)
}

/// Of Y, U, V in the sampling of these settings, 4:2:0 where there are none.
fn plane_shapes(settings: Option<[u32; 4]>, w: u32, h: u32) -> [Shape; 3] {
    let shape = |row: u32, rows: u32| Shape {
        row: u64::from(row),
        rows: u64::from(rows),
    };
    let sampling = settings.map_or(0, |[sampling, ..]| sampling as u8);
    let [cw, ch] = conditions::chroma_sides(sampling, w, h);
    let chroma = shape(cw, ch);
    [shape(w, h), chroma, chroma]
}

/// Another size, or another stride or length of a plane.
pub fn plane_fault(random: &mut Random, request: &mut RecordRequest, planes: &mut [Vec<u8>; 3]) {
    if random.one_in(4) {
        let side = if random.one_in(2) {
            &mut request.w
        } else {
            &mut request.h
        };
        *side = random.pick(&[0, 0, 16_385, 65_536, 65_537, 1 << 31, u32::MAX]);
        return;
    }
    let shapes = plane_shapes(request.settings, request.w, request.h);
    let i = random.below(3) as usize;
    let strides = [
        &mut request.y_stride,
        &mut request.u_stride,
        &mut request.v_stride,
    ];
    let [y, u, v] = strides;
    let stride = [y, u, v].into_iter().nth(i).expect("three strides");
    buffer_fault(random, &mut planes[i], stride, shapes[i]);
}

/// What a source has before and behind the rectangle in one direction: often nothing, now and then
/// all that it may have. The other direction has so many rows or columns.
fn margins(random: &mut Random, side: u32, other: u32) -> (u32, u32) {
    let room = LARGEST_SIDE.saturating_sub(side);
    if other <= 4 && random.one_in(50) {
        let any = random.from(0, room);
        let before = random.pick(&[0, 1, room / 2, room, any]).min(room);
        return (before, room - before);
    }
    let mut some = |room: u32| match random.below(4) {
        0 => 0,
        1 => 1.min(room),
        _ => random.from(0, room.min(9)),
    };
    let before = some(room);
    (before, some(room - before))
}

const LARGEST_SIDE: u32 = 16_384;

/// Puts an accepted frame that is all of its source into a larger one, of random bytes.
pub fn put_in_source(random: &mut Random, request: &mut FrameRequest) {
    let (w, h) = (request.frame.w, request.frame.h);
    let (left, right) = margins(random, w, h);
    let source_width = left + w + right;
    let (top, bottom) = margins(random, h, source_width);
    let window = Window {
        left,
        top,
        source_width,
        source_height: top + h + bottom,
    };
    set_window(random, request, window);
}

/// Gives an accepted frame another window, and a source for it with the padding that it had.
pub fn set_window(random: &mut Random, request: &mut FrameRequest, window: Window) {
    let padding = request.strides()[0] - request.shapes()[0].row as u32;
    request.frame.window = window;
    let source = request.shapes()[0];
    request.frame.source_stride = source.row as u32 + padding;
    let length = (source.row as usize + padding as usize) * source.rows as usize;
    request.lent[0] = source_bytes(random, length);
}

/// Two of three are accepted, the others have one to three faults.
pub fn frame(random: &mut Random, side: u32) -> FrameRequest {
    let mut request = any_frame(random, side);
    if random.one_in(3) {
        for _ in 0..random.from(1, 3) {
            frame_fault(random, &mut request);
        }
    }
    request
}

pub fn frame_fault(random: &mut Random, request: &mut FrameRequest) {
    let f = &mut request.frame;
    match random.below(13) {
        0 => size_fault(random, &mut f.w, &mut f.h, &mut f.window),
        1 => matrix_fault(random, &mut f.settings),
        2..=4 => window_fault(random, f.w, f.h, &mut f.window),
        _ => {
            let shapes = request.shapes();
            let mut strides = request.strides();
            let i = random.below(4) as usize;
            buffer_fault(random, &mut request.lent[i], &mut strides[i], shapes[i]);
            request.set_strides(strides);
        }
    }
}

/// A frame that is all of its source stays so half of the time.
fn size_fault(random: &mut Random, w: &mut u32, h: &mut u32, window: &mut Window) {
    let whole = *window == Window::whole(*w, *h) && random.one_in(2);
    let side = if random.one_in(2) { &mut *w } else { &mut *h };
    *side = random.pick(&[0, 0, 16_385, 65_536, 1 << 31, u32::MAX]);
    if whole {
        *window = Window::whole(*w, *h);
    }
}

/// A window that reaches past its source in one direction, by one or by much, also where left and
/// width add up to little in 32 bits; or a source with a side of 0, too large, or of another size
/// than the bytes lent.
fn window_fault(random: &mut Random, w: u32, h: u32, window: &mut Window) {
    let (first, all, side) = if random.one_in(2) {
        (&mut window.left, &mut window.source_width, w)
    } else {
        (&mut window.top, &mut window.source_height, h)
    };
    let room = all.saturating_sub(side);
    match random.below(8) {
        0 | 1 => *first = room.saturating_add(1),
        2 => *first = u32::MAX - random.from(0, 3),
        // They add up to at most 3, or to the source's side, in 32 bits.
        3 => *first = random.from(0, 3).wrapping_sub(side),
        4 => *first = room.wrapping_sub(1 << random.from(16, 31)),
        5 => *all = random.pick(&[0, 0, 16_385, 65_536, 1 << 31, u32::MAX]),
        6 => *all = first.saturating_add(side).saturating_sub(1),
        _ => *all = random.from(0, 16_384),
    }
}

fn matrix_fault(random: &mut Random, settings: &mut Settings) {
    let (kr, kb) = refused_pair(random);
    settings.matrix = YuvStandardMatrix::Custom(kr, kb);
}

/// Half of the time another stride, and then a length near one of those that decide.
fn buffer_fault(random: &mut Random, bytes: &mut Vec<u8>, stride: &mut u32, shape: Shape) {
    let row = shape.row.min(u64::from(u32::MAX)) as u32;
    if random.one_in(2) {
        *stride = match random.below(6) {
            0 => 0,
            1 => row.saturating_sub(1),
            2 => row,
            3 => u32::MAX,
            4 => random.from(0, row),
            _ => random.next() as u32,
        };
    }
    // Any u32 rows: below 2^64.
    let exact = u64::from(*stride) * shape.rows;
    let least = (u64::from(*stride) * shape.rows.saturating_sub(1)).saturating_add(shape.row);
    let length = match random.below(9) {
        0 => 0,
        1 => least.saturating_sub(1),
        2 => least,
        3 => exact,
        4 => exact.saturating_sub(1),
        5 => exact.saturating_add(1),
        6 => exact.saturating_add(u64::from(*stride)),
        7 => exact.saturating_add(2 * u64::from(*stride)),
        _ => random.below(2 * bytes.len() as u64 + 2),
    };
    set_length(random, bytes, length);
}

/// A buffer longer than this stays as it is: it would only take memory.
const LONGEST: u64 = 1 << 20;

fn set_length(random: &mut Random, bytes: &mut Vec<u8>, length: u64) {
    if length <= LONGEST {
        let more = random.bytes((length as usize).saturating_sub(bytes.len()));
        bytes.truncate(length as usize);
        bytes.extend(more);
    }
}

/// A band call on any state, also one that no list of calls leads to. Two of three are accepted.
pub fn band(random: &mut Random, side: u32) -> BandRequest {
    let request = any_frame(random, side);
    let opening = request.opening();
    let FrameRequest { frame, mut lent } = request;
    let done = random.from(0, frame.h - 1);
    let rows = random.from(1, frame.h - done);
    lent[0].truncate(frame.source_stride as usize * rows as usize);
    let surplus = random.below(9) as usize;
    let mut request = BandRequest {
        state: FrameState { done, ..opening },
        rows,
        source_stride: frame.source_stride,
        lent,
        carried: random.bytes(3 * frame.w as usize + surplus),
    };
    if random.one_in(3) {
        for _ in 0..random.from(1, 3) {
            band_fault(random, &mut request);
        }
    }
    request
}

pub fn band_fault(random: &mut Random, request: &mut BandRequest) {
    let state = &mut request.state;
    match random.below(14) {
        0 => size_fault(random, &mut state.w, &mut state.h, &mut state.window),
        1 => matrix_fault(random, &mut state.settings),
        6 | 7 => window_fault(random, state.w, state.h, &mut state.window),
        2 => {
            let remain = state.h.saturating_sub(state.done);
            request.rows = random.pick(&[0, remain, remain.saturating_add(1), u32::MAX]);
        }
        3 => state.done = random.pick(&[state.h, state.h.saturating_add(1), u32::MAX]),
        4 | 5 => {
            let needed = 3 * u64::from(state.w);
            let length = random.pick(&[0, needed.saturating_sub(1), needed, needed / 3]);
            set_length(random, &mut request.carried, length);
        }
        _ => {
            let shapes = request.shapes();
            let mut strides = request.strides();
            let i = random.below(4) as usize;
            buffer_fault(random, &mut request.lent[i], &mut strides[i], shapes[i]);
            request.set_strides(strides);
        }
    }
}

/// A frame cut into bands at random, half of the time with refused calls between them.
pub fn run(random: &mut Random, side: u32) -> Run {
    let request = any_frame(random, side);
    in_bands(random, request)
}

fn in_bands(random: &mut Random, request: FrameRequest) -> Run {
    let most = if random.one_in(2) { 3 } else { request.frame.h };
    let mut bands = Vec::new();
    let mut remain = request.frame.h;
    while remain > 0 {
        let rows = random.from(1, most.min(remain));
        bands.push((rows, padding(random)));
        remain -= rows;
    }
    let surplus = random.below(9) as usize;
    Run {
        carried: random.bytes(3 * request.frame.w as usize + surplus),
        bands,
        refused: if random.one_in(2) { random.next() } else { 0 },
        request,
    }
}

/// The greys of a rectangle, one for each of its pixels: of any kind, black and white, one grey, a
/// slope, near each other.
fn greys(random: &mut Random, w: u32, pixels: usize) -> Vec<u8> {
    let base = random.next() as u8;
    let (across, down) = (random.from(0, 9), random.from(0, 9));
    let kind = random.below(6);
    let mut greys = random.bytes(pixels);
    for (grey, i) in greys.iter_mut().zip(0u32..) {
        *grey = match kind {
            0 | 1 => (*grey & 1) * 255,
            2 => base,
            3 => base.wrapping_add((i % w * across + i / w * down) as u8),
            4 => base.wrapping_add(*grey & 3),
            _ => *grey,
        };
    }
    greys
}

/// Paints the rectangle of an accepted frame, each pixel with a grey of its own; alpha stays.
pub fn paint_grey(random: &mut Random, request: &mut FrameRequest) {
    let (w, h) = (request.frame.w, request.frame.h);
    let greys = greys(random, w, (w * h) as usize);
    request.paint(|row, column| greys[(row * w + column) as usize]);
}

/// A small accepted frame, grey, and four of five as a rectangle of a coloured source: noise, or bytes
/// of 0 and 255. Half of the matrices are Custom.
pub fn grey_frame(random: &mut Random) -> FrameRequest {
    let mut settings = settings(random);
    settings.rounding = coded(random, 2, rounding_of);
    settings.matrix = if random.one_in(2) {
        let (kr, kb) = any_accepted_pair(random);
        YuvStandardMatrix::Custom(kr, kb)
    } else {
        coded(random, 6, matrix_of)
    };
    let size = match random.below(1_000) {
        0 => random.pick(&[(1, 16_384), (16_384, 1), (2, 16_383), (16_383, 2)]),
        1..25 => (random.from(1, 40), random.from(1, 40)),
        _ => (random.from(1, 9), random.from(1, 9)),
    };
    let mut request = frame_of_size(random, settings, size);
    if !random.one_in(5) {
        put_in_source(random, &mut request);
    }
    let mut source = random.bytes(request.lent[0].len());
    if random.one_in(2) {
        for byte in &mut source {
            *byte = (*byte & 1) * 255;
        }
    }
    request.lent[0] = source;
    paint_grey(random, &mut request);
    request
}

/// A grey frame cut into bands, and how many of its rows are grey: in one of four those from a row on
/// have random bytes.
pub fn grey_run(random: &mut Random) -> (Run, u32) {
    let mut request = grey_frame(random);
    let FrameRequest { frame: f, lent } = &mut request;
    let mut grey_rows = f.h;
    if random.one_in(4) {
        grey_rows = random.from(0, f.h);
        let coloured = (f.window.top + grey_rows) as usize * f.source_stride as usize;
        let length = lent[0].len() - coloured;
        lent[0][coloured..].copy_from_slice(&random.bytes(length));
    }
    (in_bands(random, request), grey_rows)
}

/// An accepted input of the program, grey.
pub fn grey_input(random: &mut Random) -> Input {
    let (w, h) = (random.from(1, 24), random.from(1, 24));
    let codes = [4, 2, 2, 6, 4].map(|count| random.below(count) as u8);
    let c = if codes[0] == 0 || codes[0] == 3 { 3 } else { 4 };
    let mut input = [(w as u16).to_le_bytes(), (h as u16).to_le_bytes()].concat();
    input.extend(codes);
    for grey in greys(random, w, (w * h) as usize) {
        let alpha = random.next() as u8;
        input.extend(&[grey, grey, grey, alpha][..c]);
    }
    Input(input)
}

/// Input of the program, one of three with a fault.
pub fn input(random: &mut Random, side: u32) -> Input {
    let (w, h) = match random.below(20) {
        0 => random.pick(&[(128, 128), (16_384, 1), (1, 16_384), (8_192, 2), (127, 129)]),
        _ => (random.from(1, side), random.from(1, side)),
    };
    let codes = [4, 2, 2, 6, 4].map(|count| random.below(count) as u8);
    let c = if codes[0] == 0 || codes[0] == 3 { 3 } else { 4 };
    let mut input = [(w as u16).to_le_bytes(), (h as u16).to_le_bytes()].concat();
    input.extend(codes);
    input.extend(source_bytes(random, w as usize * h as usize * c));
    if random.one_in(3) {
        input_fault(random, &mut input);
    }
    Input(input)
}

fn input_fault(random: &mut Random, input: &mut Vec<u8>) {
    let few = random.from(1, 3) as usize;
    match random.below(6) {
        0 => input.truncate(random.below(12) as usize),
        1 => input[4 + random.below(5) as usize] = random.next() as u8,
        2 => {
            let at = 2 * random.below(2) as usize;
            let size = random.pick(&[0u16, 16_384, 16_385, 65_535]);
            input[at..at + 2].copy_from_slice(&size.to_le_bytes());
        }
        3 => {
            let sizes = [(129u16, 128u16), (128, 129), (16_385, 1), (1, 16_385)];
            let (w, h) = random.pick(&sizes);
            input[..2].copy_from_slice(&w.to_le_bytes());
            input[2..4].copy_from_slice(&h.to_le_bytes());
        }
        4 => input.truncate(input.len() - few),
        _ => input.extend(random.bytes(few)),
    }
}
