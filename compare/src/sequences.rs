//! The band sequences of the stored list, from fixed seeds: an opening and the band calls after it,
//! all on the same planes and the same carried row.

use crate::conditions;
use crate::random::{self, Random};
use crate::request::{BandRequest, FrameRequest, Lent};
use crate::stored::repeated;
use model::settings::{channels_of, matrix_of, range_of, sampling_of, transfer_of};
use model::{
    FrameState, Settings, TableRounding, Window, YuvChromaSubsampling, YuvRange, YuvStandardMatrix,
};

const SEED: u64 = 2;

/// The most calls after an opening.
pub const MOST_CALLS: usize = 8;

/// Y, U, V and the carried row, longer than any call that is accepted is lent.
pub type Held = [Vec<u8>; 4];

/// The bytes of each in the replaying program.
const HELD: usize = 256;

/// A band call on the first bytes of the buffers that its sequence holds.
pub struct BandCall {
    pub why: &'static str,
    pub state: FrameState,
    pub rows: u32,
    pub source_stride: u32,
    pub source: Vec<u8>,
    pub lengths: [usize; 4],
}

pub struct Sequence {
    pub group: &'static str,
    /// What the opening is asked to fix; no row is done.
    pub opening: FrameState,
    pub held: Held,
    pub calls: Vec<BandCall>,
    /// The frame whose rows the accepted calls bring, where they bring all of them.
    pub whole: Option<FrameRequest>,
}

impl BandCall {
    /// The call as the model is asked.
    pub fn request(&self, held: &Held) -> BandRequest {
        let part = |i: usize| held[i][..self.lengths[i]].to_vec();
        BandRequest {
            state: self.state,
            rows: self.rows,
            source_stride: self.source_stride,
            lent: [self.source.clone(), part(0), part(1), part(2)],
            carried: part(3),
        }
    }

    fn is_refused(&self, held: &Held) -> bool {
        conditions::of_band(&self.request(held)).is_err()
    }
}

pub fn sequences() -> Vec<Sequence> {
    let mut list = Vec::new();
    for case in 0..48 {
        list.push(cuts("cuts", case, settings, frame));
    }
    for case in 0..64 {
        let group = "refused between";
        list.push(refused_between(group, case, 1, settings, frame, &FAULTS));
    }
    for case in 0..24 {
        let group = "forged between";
        list.push(refused_between(group, case, 2, settings, frame, &FORGED));
    }
    for case in 0..12 {
        list.push(unfinished(case));
    }
    for case in 0..32 {
        list.push(no_call_made(case));
    }
    for case in 0..12 {
        list.push(opening_refused(case));
    }
    // Steps of 5 bring every order and every transfer with every sampling.
    for case in (68..108).step_by(5) {
        list.push(cuts("Nearest cuts", case, nearest, frame));
    }
    for (kind, faults) in [(4, &FAULTS[..]), (5, &FORGED[..]), (6, &OTHER_ROUNDING[..])] {
        for case in (0..20).step_by(5) {
            let group = "Nearest refused between";
            list.push(refused_between(group, case, kind, nearest, frame, faults));
        }
    }
    for case in 0..4 {
        list.push(other_rounding(case));
    }
    // Every order and sampling in single rows, then 4:2:0 in bands of three.
    for case in (104..112).chain(120..124) {
        list.push(cuts("window cuts", case, either, in_source));
    }
    for case in [0, 1, 4, 5] {
        let group = "window refused between";
        list.push(refused_between(group, case, 7, either, in_source, &FAULTS));
    }
    for case in 0..5 {
        let group = "other window between";
        let faults = &OTHER_WINDOW;
        list.push(refused_between(group, case, 8, either, in_source, faults));
    }
    for (case, faults) in (0..).zip(OTHER_WINDOW.chunks(MOST_CALLS - 1)) {
        list.push(each_refused(case, faults));
    }
    for case in 0..4 {
        list.push(other_window(case));
    }
    for case in 0..8 {
        list.push(window_refused(case));
    }
    // Every order and sampling in single rows.
    for case in 136..144 {
        list.push(cuts("grey cuts", case, custom_ends, grey_in_source));
    }
    for (case, faults) in [
        (24, &FAULTS[..]),
        (9, &OTHER_WINDOW[..]),
        (34, &FORGED[..]),
        (36, &OTHER_WINDOW[..]),
    ] {
        let (group, frame) = ("grey refused between", grey_in_source);
        list.push(refused_between(group, case, 9, custom_ends, frame, faults));
    }
    // In bands of two, of three and of any number of rows.
    for case in [145, 155, 166] {
        list.push(cuts(
            "black and white",
            case,
            bt601_limited,
            black_and_white,
        ));
    }
    for sequence in &mut list {
        for buffer in &mut sequence.held {
            *buffer = repeated(buffer, HELD);
        }
    }
    list
}

/// Orders, samplings and matrices come round, Custom as one; range and transfer are any. Truncated.
fn settings(random: &mut Random, case: u64) -> Settings {
    let (range, transfer) = (random.from(0, 1) as u8, random.from(0, 3) as u8);
    Settings {
        channels: channels_of((case % 4) as u8).expect("a code with a meaning"),
        sampling: sampling_of((case / 4 % 2) as u8).expect("a code with a meaning"),
        range: range_of(range).expect("a code with a meaning"),
        matrix: matrix_of((case % 7) as u8).unwrap_or_else(|| {
            let (kr, kb) = random::accepted_pair(random);
            YuvStandardMatrix::Custom(kr, kb)
        }),
        transfer: transfer_of(transfer).expect("a code with a meaning"),
        rounding: TableRounding::Truncated,
    }
}

/// The same with nearest tables, and transfers that come round too.
fn nearest(random: &mut Random, case: u64) -> Settings {
    Settings {
        transfer: transfer_of((case % 4) as u8).expect("a code with a meaning"),
        rounding: TableRounding::Nearest,
        ..settings(random, case)
    }
}

/// The same with either tables.
fn either(random: &mut Random, case: u64) -> Settings {
    let rounding = random.pick(&[TableRounding::Truncated, TableRounding::Nearest]);
    Settings {
        rounding,
        ..settings(random, case)
    }
}

/// The same with either tables, every other matrix Custom with kr and kb at the ends or next to them.
fn custom_ends(random: &mut Random, case: u64) -> Settings {
    let settings = either(random, case);
    let (least, below) = (f32::from_bits(1), 0.5f32.next_down());
    let mut end = || random.pick(&[0.0, 0.5, 0.0, 0.5, -0.0, below, least]);
    let custom = YuvStandardMatrix::Custom(end(), end());
    Settings {
        matrix: if case % 2 == 0 {
            custom
        } else {
            settings.matrix
        },
        ..settings
    }
}

/// The same with either tables, Bt601 and limited range.
fn bt601_limited(random: &mut Random, case: u64) -> Settings {
    Settings {
        range: YuvRange::Limited,
        matrix: YuvStandardMatrix::Bt601,
        ..either(random, case)
    }
}

fn other(rounding: TableRounding) -> TableRounding {
    match rounding {
        TableRounding::Truncated => TableRounding::Nearest,
        TableRounding::Nearest => TableRounding::Truncated,
    }
}

/// An accepted frame of at most 12 by 12 with these settings, and the buffers held for it: a few
/// bytes longer than its planes and its carried row, all random.
fn frame(random: &mut Random, settings: Settings, h: u32) -> (FrameRequest, Held) {
    let w = random.from(1, 12);
    let mut request = random::accepted_frame(random, 1);
    request.frame.settings = settings;
    request.set_size(w, h);
    let shapes = request.shapes();
    let padding = |random: &mut Random| random.from(0, 3);
    request.set_strides(shapes.map(|shape| shape.row as u32 + padding(random)));
    let strides = request.strides();
    let length = |i: usize| strides[i] as usize * shapes[i].rows as usize;
    let source = random::source_bytes(random, length(0));
    let [y, u, v] = [1, 2, 3].map(|i| {
        let more = random.from(1, 3) as usize;
        random.bytes(length(i) + more)
    });
    let more = random.from(0, 4) as usize;
    let carried = random.bytes(3 * w as usize + more);
    request.lent = [
        source,
        y[..length(1)].to_vec(),
        u[..length(2)].to_vec(),
        v[..length(3)].to_vec(),
    ];
    (request, [y, u, v, carried])
}

/// Another size, of a frame that is all of its source.
fn sized(state: FrameState, w: u32, h: u32) -> FrameState {
    let window = Window::whole(w, h);
    FrameState {
        w,
        h,
        window,
        ..state
    }
}

/// The same as a rectangle with something of its source on at least one side.
fn in_source(random: &mut Random, settings: Settings, h: u32) -> (FrameRequest, Held) {
    let (mut request, held) = frame(random, settings, h);
    let [left, right, top, bottom] = [(); 4].map(|()| random.from(0, 4));
    let left = left.max(1 - right.min(1));
    let window = Window {
        left,
        top,
        source_width: left + request.frame.w + right,
        source_height: top + h + bottom,
    };
    random::set_window(random, &mut request, window);
    (request, held)
}

/// A grey rectangle, each pixel its own grey, of a source of noise.
fn grey_in_source(random: &mut Random, settings: Settings, h: u32) -> (FrameRequest, Held) {
    let (mut request, held) = in_source(random, settings, h);
    request.lent[0] = random.bytes(request.lent[0].len());
    let greys = random.bytes(12 * 12);
    request.paint(|row, column| greys[(12 * row + column) as usize]);
    (request, held)
}

/// The same in black and white.
fn black_and_white(random: &mut Random, settings: Settings, h: u32) -> (FrameRequest, Held) {
    let (mut request, held) = grey_in_source(random, settings, h);
    let greys = random.bytes(12 * 12);
    request.paint(|row, column| 255 * (greys[(12 * row + column) as usize] & 1));
    (request, held)
}

/// An accepted call: the next rows of the frame, in the whole width of its source, with a source stride of its own.
fn band(
    random: &mut Random,
    request: &FrameRequest,
    held: &Held,
    done: u32,
    rows: u32,
) -> BandCall {
    let row = request.shapes()[0].row as usize;
    let padding = random.from(0, 4) as usize;
    let mut source = Vec::new();
    for r in done..done + rows {
        source.extend(request.source_row(r as usize));
        source.extend(vec![0x5a; padding]);
    }
    let [_, y, u, v] = request.lent.each_ref().map(Vec::len);
    let least = 3 * request.frame.w as usize;
    let carried = if random.one_in(2) {
        least
    } else {
        held[3].len()
    };
    BandCall {
        why: "",
        state: FrameState {
            done,
            ..request.opening()
        },
        rows,
        source_stride: (row + padding) as u32,
        source,
        lengths: [y, u, v, carried],
    }
}

/// Cuts a height into at most `most` bands of these rows each, 0: any number of them.
fn cut(random: &mut Random, h: u32, each: u32, most: usize) -> Vec<u32> {
    let mut bands = Vec::new();
    let mut remain = h;
    while remain > 0 {
        let rows = match each {
            _ if bands.len() + 1 == most => remain,
            0 => random.from(1, remain),
            each => each.min(remain),
        };
        bands.push(rows);
        remain -= rows;
    }
    bands
}

/// The calls that bring bands one after the other.
fn bands(random: &mut Random, request: &FrameRequest, held: &Held, rows: &[u32]) -> Vec<BandCall> {
    let mut done = 0;
    let mut calls = Vec::new();
    for rows in rows {
        calls.push(band(random, request, held, done, *rows));
        done += rows;
    }
    calls
}

/// The settings of a case.
type SettingsOf = fn(&mut Random, u64) -> Settings;

/// An accepted frame of a height, and what is held for it.
type FrameOf = fn(&mut Random, Settings, u32) -> (FrameRequest, Held);

/// Whole frames in bands of 1, 2, 3 or any number of rows, with no other call.
fn cuts(group: &'static str, case: u64, settings: SettingsOf, frame: FrameOf) -> Sequence {
    let mut random = Random::new(SEED, 1, case);
    let settings = settings(&mut random, case);
    let each = (case / 8 % 4) as u32;
    let highest = if each == 1 { MOST_CALLS as u64 } else { 12 };
    let h = 1 + (5 * case % highest) as u32;
    let (request, held) = frame(&mut random, settings, h);
    let rows = cut(&mut random, h, each, MOST_CALLS);
    Sequence {
        group,
        opening: request.opening(),
        calls: bands(&mut random, &request, &held, &rows),
        held,
        whole: Some(request),
    }
}

/// A change of an accepted call, and what it is. Most are refused: all that stand between calls.
type Fault = (&'static str, fn(&mut Random, &mut BandCall));

/// The bytes of a row and the least length of the source (0) or a plane (1, 2, 3).
fn least(call: &BandCall, i: usize) -> (u32, usize) {
    let empty: Lent = Default::default();
    let request = BandRequest {
        state: call.state,
        rows: call.rows,
        source_stride: call.source_stride,
        lent: empty,
        carried: Vec::new(),
    };
    let shape = request.shapes()[i];
    let rows = shape.rows.saturating_sub(1) as usize;
    let least = request.strides()[i] as usize * rows + shape.row as usize;
    (shape.row as u32, least)
}

fn remain(call: &BandCall) -> u32 {
    call.state.h.saturating_sub(call.state.done)
}

/// The current state, or one whose plane strides were changed, with a fault in what is lent.
const FAULTS: [Fault; 22] = [
    ("no row", |_, call| call.rows = 0),
    ("a row too many", |_, call| call.rows = remain(call) + 1),
    ("the most rows", |_, call| call.rows = u32::MAX),
    ("source one under its least", |_, call| {
        let (_, least) = least(call, 0);
        call.source.truncate(least - 1);
    }),
    ("no source", |_, call| call.source.clear()),
    ("source stride one under", |_, call| {
        call.source_stride = least(call, 0).0 - 1;
    }),
    ("longest source stride", |_, call| {
        call.source_stride = u32::MAX;
    }),
    ("Y stride one under", |_, call| {
        call.state.y_stride = least(call, 1).0 - 1;
    }),
    ("Y one under its least", |_, call| {
        call.lengths[0] = least(call, 1).1 - 1;
    }),
    ("U stride one under", |_, call| {
        call.state.u_stride = least(call, 2).0 - 1;
    }),
    ("U one under its least", |_, call| {
        call.lengths[1] = least(call, 2).1 - 1;
    }),
    ("V stride one under", |_, call| {
        call.state.v_stride = least(call, 3).0 - 1;
    }),
    ("V one under its least", |_, call| {
        call.lengths[2] = least(call, 3).1 - 1;
    }),
    ("source one over", |_, call| call.source.push(7)),
    ("source at its least", |_, call| {
        let (_, least) = least(call, 0);
        call.source.truncate(least);
    }),
    ("Y one over", |_, call| call.lengths[0] += 1),
    ("Y at its least", |_, call| {
        call.lengths[0] = least(call, 1).1;
    }),
    ("U one over", |_, call| call.lengths[1] += 1),
    ("V one over", |_, call| call.lengths[2] += 1),
    ("carried row one under", |_, call| {
        call.lengths[3] = 3 * call.state.w as usize - 1;
    }),
    ("no carried row", |_, call| call.lengths[3] = 0),
    ("all buffers empty", |_, call| {
        call.source.clear();
        call.lengths = [0; 4];
    }),
];

/// States that no call made.
const FORGED: [Fault; 14] = [
    ("rows done at the height", |_, call| {
        call.state.done = call.state.h;
    }),
    ("rows done past the height", |_, call| {
        call.state.done = call.state.h + 1;
    }),
    ("the most rows done", |_, call| call.state.done = u32::MAX),
    ("the most rows done and asked for", |_, call| {
        call.state.done = u32::MAX;
        call.rows = u32::MAX;
    }),
    ("no width", |_, call| {
        call.state = sized(call.state, 0, call.state.h);
    }),
    ("no height", |_, call| {
        call.state = sized(call.state, call.state.w, 0);
    }),
    ("too wide", |_, call| {
        call.state = sized(call.state, 16_385, call.state.h);
    }),
    ("too high", |_, call| {
        call.state = sized(call.state, call.state.w, u32::MAX);
    }),
    ("matrix no number", |random, call| {
        let kb = random.pick(&[0.1, -0.0, f32::NAN]);
        call.state.settings.matrix = YuvStandardMatrix::Custom(f32::NAN, kb);
    }),
    ("matrix over a half", |_, call| {
        call.state.settings.matrix = YuvStandardMatrix::Custom(-0.0, 0.5f32.next_up());
    }),
    ("wider than the buffers", |_, call| {
        call.state = sized(call.state, call.state.w + 9, call.state.h);
    }),
    ("higher than the buffers", |_, call| {
        call.state = sized(call.state, call.state.w, call.state.h + 8);
        call.state.done += 1;
    }),
    ("other sampling", |_, call| {
        use YuvChromaSubsampling::{Yuv420, Yuv422};
        let sampling = &mut call.state.settings.sampling;
        *sampling = if *sampling == Yuv420 { Yuv422 } else { Yuv420 };
    }),
    ("other strides", |_, call| {
        call.state.y_stride = u32::MAX;
        call.state.u_stride = 0;
        call.state.v_stride += 1;
    }),
];

/// States that no call made: the other rounding, and a fault that refuses the call.
const OTHER_ROUNDING: [Fault; 4] = [
    ("other rounding, no row", |_, call| {
        call.state.settings.rounding = other(call.state.settings.rounding);
        call.rows = 0;
    }),
    ("other rounding, source one over", |_, call| {
        call.state.settings.rounding = other(call.state.settings.rounding);
        call.source.push(7);
    }),
    ("other rounding, carried row one under", |_, call| {
        call.state.settings.rounding = other(call.state.settings.rounding);
        call.lengths[3] = 3 * call.state.w as usize - 1;
    }),
    ("other rounding, rows done past the height", |_, call| {
        call.state.settings.rounding = other(call.state.settings.rounding);
        call.state.done = call.state.h + 1;
    }),
];

/// States that no call made: a rectangle past its source, a source that there is not, or one too
/// large, other faults with these, and another window with a fault that refuses the call.
const OTHER_WINDOW: [Fault; 16] = [
    ("left one past the source", |_, call| {
        call.state.window.left = room(call).0 + 1;
    }),
    ("left past the source, no row", |_, call| {
        call.state.window.left = room(call).0 + 1;
        call.rows = 0;
    }),
    ("top one past the source", |_, call| {
        call.state.window.top = room(call).1 + 1;
    }),
    ("left and width that wrap", |_, call| {
        call.state.window.left = 0u32.wrapping_sub(call.state.w);
    }),
    ("top and height that wrap", |_, call| {
        call.state.window.top = 1u32.wrapping_sub(call.state.h);
    }),
    ("source of no width", |_, call| {
        call.state.window.source_width = 0;
    }),
    ("source of no height", |_, call| {
        call.state.window.source_height = 0;
    }),
    ("source too wide", |_, call| {
        call.state.window.source_width = 16_385;
    }),
    ("source too high", |_, call| {
        call.state.window.source_height = u32::MAX;
    }),
    ("source wider than the rows lent", |_, call| {
        call.state.window.source_width += 9;
    }),
    ("source stride that of the rectangle", |_, call| {
        let c = call.state.settings.channels.bytes() as u32;
        call.source_stride = call.state.w * c;
        let (_, least) = least(call, 0);
        call.source.truncate(least);
    }),
    ("left past the source, matrix no number", |_, call| {
        call.state.window.left = u32::MAX;
        call.state.settings.matrix = YuvStandardMatrix::Custom(f32::NAN, 0.1);
    }),
    ("top past the source, all buffers empty", |_, call| {
        call.state.window.top = u32::MAX;
        call.source.clear();
        call.lengths = [0; 4];
    }),
    ("other window, source one over", |_, call| {
        call.state.window = elsewhere(call.state.w, call.state.h, &call.state.window);
        call.source.push(7);
    }),
    ("other window, carried row one under", |_, call| {
        call.state.window = elsewhere(call.state.w, call.state.h, &call.state.window);
        call.lengths[3] = 3 * call.state.w as usize - 1;
    }),
    ("left past the source, the most rows done", |_, call| {
        call.state.window.left = room(call).0 + 1;
        call.state.done = u32::MAX;
    }),
];

/// How far the rectangle may go to the right, and how far down.
fn room(call: &BandCall) -> (u32, u32) {
    let window = &call.state.window;
    (
        window.source_width - call.state.w,
        window.source_height - call.state.h,
    )
}

/// Another place in a source that is wider than w, one column aside and at its top or bottom.
fn elsewhere(w: u32, h: u32, window: &Window) -> Window {
    let (columns, rows) = (window.source_width - w, window.source_height - h);
    Window {
        left: (window.left + 1) % (columns + 1),
        top: if window.top == 0 { rows } else { 0 },
        ..*window
    }
}

/// The call with the first of the faults, from one on, with which it is refused.
fn refused(
    random: &mut Random,
    held: &Held,
    faults: &[Fault],
    first: u64,
    again: impl Fn(&mut Random) -> BandCall,
) -> BandCall {
    (first..)
        .find_map(|place| {
            let (why, fault) = faults[place as usize % faults.len()];
            let mut call = again(random);
            fault(random, &mut call);
            call.why = why;
            call.is_refused(held).then_some(call)
        })
        .expect("a fault that is refused")
}

/// Whole frames with refused calls before, between and after the bands.
fn refused_between(
    group: &'static str,
    case: u64,
    kind: u64,
    settings: SettingsOf,
    frame: FrameOf,
    faults: &[Fault],
) -> Sequence {
    let mut random = Random::new(SEED, 10 + kind, case);
    let settings = settings(&mut random, case);
    let h = random.from(1, 9);
    let (request, held) = frame(&mut random, settings, h);
    let each = random.from(0, 3);
    let rows = cut(&mut random, h, each, 4);
    let accepted = bands(&mut random, &request, &held, &rows);
    let mut spare = MOST_CALLS - accepted.len();
    let mut first = 3 * case;
    let mut calls = Vec::new();
    let mut done = 0;
    for call in accepted {
        for _ in 0..random.from(0, 2).min(spare as u32) {
            calls.push(refused(&mut random, &held, faults, first, |random| {
                band(random, &request, &held, done, call.rows)
            }));
            (first, spare) = (first + 1, spare - 1);
        }
        done += call.rows;
        calls.push(call);
    }
    if spare > 0 {
        // All rows are done: none remains, whatever else is wrong.
        calls.push(refused(&mut random, &held, faults, first, |random| {
            let mut call = band(random, &request, &held, h - 1, 1);
            call.state.done = h;
            call
        }));
    }
    Sequence {
        group,
        opening: request.opening(),
        calls,
        held,
        whole: Some(request),
    }
}

/// A call with each of these faults, and then the whole frame in one band.
fn each_refused(case: u64, faults: &[Fault]) -> Sequence {
    let mut random = Random::new(SEED, 70, case);
    let settings = either(&mut random, 3 * case);
    let h = random.from(2, 9);
    let (request, held) = in_source(&mut random, settings, h);
    let mut calls = Vec::new();
    for fault in faults {
        let one = std::slice::from_ref(fault);
        calls.push(refused(&mut random, &held, one, 0, |random| {
            band(random, &request, &held, 0, h)
        }));
    }
    calls.push(band(&mut random, &request, &held, 0, h));
    Sequence {
        group: "each other window",
        opening: request.opening(),
        calls,
        held,
        whole: Some(request),
    }
}

/// Frames that are left after some of their rows, refused calls among them.
fn unfinished(case: u64) -> Sequence {
    let mut sequence = refused_between("not finished", case, 3, settings, frame, &FAULTS);
    let keep = 1 + sequence.calls.len() / 2;
    sequence.calls.truncate(keep);
    if sequence.calls.iter().map(|call| call.state.done).max() >= Some(sequence.opening.h) {
        sequence.calls.truncate(1);
    }
    sequence.whole = None;
    sequence
}

/// Accepted calls on states that no call made, most with odd rows done, the carried row anything;
/// one call goes back to rows that were done, one has other settings than the opening.
fn no_call_made(case: u64) -> Sequence {
    let mut random = Random::new(SEED, 20, case);
    let mut settings = settings(&mut random, case);
    if case % 4 != 3 {
        settings.sampling = YuvChromaSubsampling::Yuv420;
    }
    let h = random.from(2, 12);
    let (request, held) = frame(&mut random, settings, h);
    let odd = 2 * random.from(0, (h - 2) / 2) + 1;
    let rows = random.from(1, h - odd);
    let mut calls = vec![band(&mut random, &request, &held, odd, rows)];
    calls[0].why = "odd rows done, any carried row";
    let done = random.from(0, h - 1);
    let rows = random.from(1, h - done);
    calls.push(band(&mut random, &request, &held, done, rows));
    calls[1].why = "any rows done";
    let mut changed = band(&mut random, &request, &held, odd, 1);
    changed.state.settings = Settings {
        channels: settings.channels,
        sampling: settings.sampling,
        ..self::settings(&mut random, case + 1 + case / 7)
    };
    changed.why = "other range, matrix and transfer";
    calls.push(changed);
    Sequence {
        group: "no call made",
        opening: request.opening(),
        calls,
        held,
        whole: None,
    }
}

/// Accepted calls on states with the other rounding, which no call made: over rows that were done,
/// and over rows that are then done again as the opening has them.
fn other_rounding(case: u64) -> Sequence {
    let mut random = Random::new(SEED, 40, case);
    let settings = Settings {
        rounding: if case % 2 == 0 {
            TableRounding::Nearest
        } else {
            TableRounding::Truncated
        },
        ..nearest(&mut random, 5 * case)
    };
    let h = random.from(4, 9);
    let (mut request, held) = frame(&mut random, settings, h);
    // Noise, which tells one rounding from the other almost anywhere.
    request.lent[0] = random.bytes(request.lent[0].len());
    // Two rows finish a chroma row in either sampling.
    let first = random.from(2, h - 2);
    let mut calls = Vec::new();
    for (done, rows, why, is_other) in [
        (0, first, "", false),
        (0, first, "other rounding, rows done", true),
        (first, h - first, "other rounding", true),
        (first, h - first, "rows done again", false),
    ] {
        let mut call = band(&mut random, &request, &held, done, rows);
        if is_other {
            call.state.settings.rounding = other(settings.rounding);
        }
        call.why = why;
        calls.push(call);
    }
    Sequence {
        group: "other rounding",
        opening: request.opening(),
        calls,
        held,
        whole: None,
    }
}

/// Accepted calls on states with another place in the source, which no call made: over rows that
/// were done, and over rows that are then done again as the opening has them.
fn other_window(case: u64) -> Sequence {
    let mut random = Random::new(SEED, 50, case);
    let settings = either(&mut random, 5 * case);
    let h = random.from(4, 9);
    let (mut request, held) = in_source(&mut random, settings, h);
    request.lent[0] = random.bytes(request.lent[0].len());
    let first = random.from(2, h - 2);
    let mut calls = Vec::new();
    for (done, rows, why, is_other) in [
        (0, first, "", false),
        (0, first, "other window, rows done", true),
        (first, h - first, "other window", true),
        (first, h - first, "rows done again", false),
    ] {
        let mut call = band(&mut random, &request, &held, done, rows);
        if is_other {
            call.state.window = elsewhere(request.frame.w, h, &request.frame.window);
        }
        call.why = why;
        calls.push(call);
    }
    Sequence {
        group: "other window",
        opening: request.opening(),
        calls,
        held,
        whole: None,
    }
}

/// Openings that are refused for their window, and two band calls on the state that comes back.
fn window_refused(case: u64) -> Sequence {
    let mut random = Random::new(SEED, 60, case);
    let settings = either(&mut random, case);
    let (request, held) = in_source(&mut random, settings, 3);
    let mut state = request.opening();
    let place = &mut state.window;
    match case {
        0 => place.left = place.source_width - state.w + 1,
        1 => place.top = place.source_height - state.h + 1,
        2 => place.left = 0u32.wrapping_sub(state.w),
        3 => place.source_width = 0,
        4 => place.source_height = 0,
        5 => (place.left, place.source_width) = (u32::MAX, 16_385),
        6 => {
            place.top = u32::MAX;
            state.settings.matrix = YuvStandardMatrix::Custom(0.1, 0.5f32.next_up());
        }
        _ => (place.top, state.w) = (u32::MAX, 0),
    }
    let mut calls = Vec::new();
    for (rows, why) in [
        (2, "the refused opening's state"),
        (0, "the refused opening's state, no row"),
    ] {
        let mut call = band(&mut random, &request, &held, 0, 2);
        (call.state, call.rows, call.why) = (state, rows, why);
        calls.push(call);
    }
    Sequence {
        group: "window refused",
        opening: state,
        calls,
        held,
        whole: None,
    }
}

/// Openings that are refused, and a band call on the state that comes back.
fn opening_refused(case: u64) -> Sequence {
    let mut random = Random::new(SEED, 30, case);
    let settings = settings(&mut random, case);
    let (request, held) = frame(&mut random, settings, 3);
    let mut call = band(&mut random, &request, &held, 0, 2);
    let mut state = request.opening();
    let mut size = (state.w, state.h);
    let custom = |kr, kb| YuvStandardMatrix::Custom(kr, kb);
    match case {
        0 => size.0 = 0,
        1 => size.1 = 0,
        2 => size = (0, u32::MAX),
        3 => size.0 = 16_385,
        4 => size.1 = 16_385,
        5 => size = (u32::MAX, u32::MAX),
        6 => state.settings.matrix = custom(f32::NAN, 0.1),
        7 => state.settings.matrix = custom(0.1, -f32::from_bits(1)),
        8 => state.settings.matrix = custom(0.5f32.next_up(), 0.0),
        9 => state.settings.matrix = custom(-0.0, f32::INFINITY),
        10 => {
            size.0 = 16_385;
            state.settings.matrix = custom(f32::NAN, f32::NAN);
        }
        _ => {
            size.1 = 0;
            state.settings.matrix = custom(-1.0, 1.0);
        }
    }
    state = sized(state, size.0, size.1);
    call.state = state;
    call.why = "the refused opening's state";
    Sequence {
        group: "opening refused",
        opening: state,
        calls: vec![call],
        held,
        whole: None,
    }
}
