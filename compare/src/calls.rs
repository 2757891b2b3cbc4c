//! The frame calls of the stored list, from fixed seeds.

use crate::conditions::{FRAME_SLIPS, Slip};
use crate::grey::{greys_of, planes};
use crate::mistakes::{
    EXACT_HALVES, GREY_MISTAKES, MISTAKES, Mistake, TABLE_MISTAKES, WINDOW_MISTAKES, convert,
};
use crate::random::{self, Random};
use crate::request::{FrameRequest, frame_text, shapes};
use crate::stored::repeated;
use crate::worked::{bt601, painted};
use model::grey::tint;
use model::settings::{channels_of, matrix_of, range_of, rounding_of, sampling_of, transfer_of};
use model::{
    Frame, Settings, SharpYuvGammaTransfer, TableRounding, Window, YuvChromaSubsampling, YuvRange,
    YuvSourceChannels, YuvStandardMatrix,
};
use std::collections::BTreeSet;

const SEED: u64 = 1;

/// A frame call and what it stands in the list for.
pub struct Call {
    pub group: &'static str,
    pub why: String,
    pub request: FrameRequest,
}

fn call(why: impl Into<String>, request: FrameRequest) -> Call {
    Call {
        group: "",
        why: why.into(),
        request,
    }
}

/// All calls, none twice.
pub fn calls() -> Vec<Call> {
    use TableRounding::{Nearest, Truncated};
    let groups = [
        ("worked line", worked_lines(Truncated)),
        ("mistake", mistakes(&MISTAKES, 100)),
        ("sides", sides()),
        ("Custom limit", custom_limits()),
        ("boundary", boundaries()),
        ("long stride", long_strides()),
        ("two conditions", two_conditions()),
        ("settings", all_settings()),
        ("Custom pair", custom_pairs()),
        ("large", large()),
        ("ramp", ramps(Truncated)),
        ("Nearest worked line", worked_lines(Nearest)),
        ("Nearest flat colour", tens()),
        ("mistake", mistakes(&TABLE_MISTAKES, 150)),
        ("exact half", exact_halves()),
        ("Nearest condition", one_condition()),
        ("Nearest settings", nearest_settings()),
        ("Nearest ramp", ramps(Nearest)),
        ("mistake", mistakes(&WINDOW_MISTAKES, 170)),
        ("condition's mistake", slips()),
        ("window", windows()),
        ("window's place", window_places()),
        ("far corner", far_corners()),
        ("window's limit", window_limits()),
        ("window's source", window_boundaries()),
        ("14 and another", outside_and_another()),
        ("mistake", mistakes(&GREY_MISTAKES, 180)),
        ("grey", grey_rectangles()),
        ("black and white", black_and_white()),
        ("grey Custom", grey_pairs()),
        ("all greys", all_greys()),
    ];
    let mut seen = BTreeSet::new();
    let mut calls = Vec::new();
    for (group, list) in groups {
        for call in list {
            if seen.insert(frame_text(&call.request)) {
                calls.push(Call { group, ..call });
            }
        }
    }
    calls
}

/// An accepted frame with rows this much longer than they must be, planes full of a pattern, and
/// a source of one of the kinds that the random requests have.
fn frame(
    random: &mut Random,
    w: u32,
    h: u32,
    settings: Settings,
    padding: [u32; 4],
) -> FrameRequest {
    let shapes = shapes(w, h, (w, h), &settings);
    let strides = [0, 1, 2, 3].map(|i| shapes[i].row as u32 + padding[i]);
    let length = |i: usize| strides[i] as usize * shapes[i].rows as usize;
    let source = random::source_bytes(random, length(0));
    let planes = [1, 2, 3].map(|i| repeated(&random.bytes(7), length(i)));
    let [y, u, v] = planes;
    FrameRequest {
        frame: Frame {
            w,
            h,
            window: Window::whole(w, h),
            settings,
            source_stride: strides[0],
            y_stride: strides[1],
            u_stride: strides[2],
            v_stride: strides[3],
        },
        lent: [source, y, u, v],
    }
}

fn some_settings(random: &mut Random) -> Settings {
    let mut below = |count| random.below(count) as u8;
    let codes = [below(4), below(2), below(2), below(6), below(4)];
    settings_of(codes).expect("codes with a meaning")
}

/// By the program's codes, and Truncated as there. None: one has no meaning.
fn settings_of([channels, sampling, range, matrix, transfer]: [u8; 5]) -> Option<Settings> {
    Some(Settings {
        channels: channels_of(channels)?,
        sampling: sampling_of(sampling)?,
        range: range_of(range)?,
        matrix: matrix_of(matrix)?,
        transfer: transfer_of(transfer)?,
        rounding: TableRounding::Truncated,
    })
}

fn some_padding(random: &mut Random) -> [u32; 4] {
    [(); 4].map(|()| {
        if random.one_in(3) {
            0
        } else {
            random.from(1, 5)
        }
    })
}

/// The worked lines of the request that are frames, by the tables of a rounding.
fn worked_lines(rounding: TableRounding) -> Vec<Call> {
    use YuvChromaSubsampling::{Yuv420, Yuv422};
    let with = |sampling, range| Settings {
        sampling,
        rounding,
        ..bt601(range)
    };
    let red = |_, _| [255, 0, 0];
    let first_red = |row, column| [255 * u8::from(row + column == 0), 0, 0];
    let limited = with(Yuv420, YuvRange::Limited);
    let mut calls = vec![
        call("red", painted(1, 1, with(Yuv420, YuvRange::Full), red)),
        call("red", painted(1, 1, with(Yuv422, YuvRange::Full), red)),
        call(
            "green",
            painted(1, 1, with(Yuv422, YuvRange::Limited), |_, _| [0, 255, 0]),
        ),
        call("black", painted(4, 5, limited, |_, _| [0; 3])),
        call("white", painted(3, 3, limited, |_, _| [255; 3])),
        call(
            "black and white",
            painted(4, 4, limited, |r, p| [255 * ((r / 2 + p / 2) % 2) as u8; 3]),
        ),
    ];
    for (why, sampling, w, h) in [
        ("weight 9: 36,863", Yuv420, 2, 2),
        ("weight 12: 49,151", Yuv420, 1, 2),
        ("weight 12: 49,151", Yuv422, 2, 1),
    ] {
        let settings = with(sampling, YuvRange::Full);
        calls.push(call(why, painted(w, h, settings, first_red)));
    }
    for (why, length) in [
        ("Y one byte under its minimum", 6),
        ("Y at its minimum, short of its last padding", 7),
    ] {
        let mut request = painted(2, 2, with(Yuv420, YuvRange::Full), |_, _| [1, 2, 3]);
        request.frame.y_stride = 5;
        request.lent[1].resize(length, 7);
        calls.push(call(why, request));
    }
    calls
}

/// A flat red of 10, which nearest tables bring back.
fn tens() -> Vec<Call> {
    use YuvChromaSubsampling::{Yuv420, Yuv422};
    let mut calls = Vec::new();
    for (sampling, w, h) in [(Yuv420, 2, 2), (Yuv422, 2, 1)] {
        let settings = Settings {
            sampling,
            rounding: TableRounding::Nearest,
            ..bt601(YuvRange::Full)
        };
        calls.push(call(
            "red of 10",
            painted(w, h, settings, |_, _| [10, 0, 0]),
        ));
    }
    calls
}

/// Two neighbours whose red comes to a gamma entry at an exact half by weights 12 and 4, and a blue
/// with which V tells that entry from the one below.
fn half_pair(entry: usize) -> [[u8; 3]; 2] {
    match entry {
        257 => [[4, 0, 10], [6, 0, 10]],
        771 => [[13, 0, 0], [15, 0, 0]],
        _ => panic!("{entry} is no exact half"),
    }
}

fn nearest_rec709(sampling: YuvChromaSubsampling) -> Settings {
    Settings {
        sampling,
        transfer: SharpYuvGammaTransfer::Rec709,
        rounding: TableRounding::Nearest,
        ..bt601(YuvRange::Full)
    }
}

/// Each entry at an exact half by itself, in both samplings.
fn exact_halves() -> Vec<Call> {
    use YuvChromaSubsampling::{Yuv420, Yuv422};
    let mut calls = Vec::new();
    for (entry, (sampling, w, h)) in EXACT_HALVES
        .iter()
        .flat_map(|entry| [(Yuv420, 1, 2), (Yuv422, 2, 1)].map(|way| (*entry, way)))
    {
        let colour = |row, column| half_pair(entry)[(row + column) as usize];
        let request = painted(w, h, nearest_rec709(sampling), colour);
        calls.push(call(format!("Rec709 gamma {entry}"), request));
    }
    calls
}

/// The frame that was thought of for a mistake, where a random one would not do.
fn thought_of(mistake: Mistake) -> Option<FrameRequest> {
    let srgb = bt601(YuvRange::Full);
    let ten = |rounding| painted(1, 1, Settings { rounding, ..srgb }, |_, _| [10, 0, 0]);
    match mistake {
        // "Rounding curve entries, so 10 survives"; truncating them, so that it does not.
        Mistake::BothRounded => Some(ten(TableRounding::Truncated)),
        Mistake::NearestLost => Some(ten(TableRounding::Nearest)),
        Mistake::HalvesDown => {
            let settings = nearest_rec709(YuvChromaSubsampling::Yuv422);
            let colour = |row, column| half_pair(EXACT_HALVES[row as usize])[column as usize];
            Some(painted(2, 2, settings, colour))
        }
        Mistake::ScaleDigit => {
            let settings = Settings {
                sampling: YuvChromaSubsampling::Yuv422,
                ..srgb
            };
            // 25,662 of the truncated gamma table by weights 12 and 4.
            let colour = |_, column| [[178, 0, 0], [132, 0, 0]][column as usize];
            Some(painted(2, 1, settings, colour))
        }
        _ => None,
    }
}

fn is_of_grey(mistake: Mistake) -> bool {
    GREY_MISTAKES.iter().any(|(other, _)| *other == mistake)
}

/// For each mistake a frame that it converts otherwise, of one pixel where that is enough. Those that
/// give grey a tint have a grey one that does not stay grey.
fn mistakes(list: &[(Mistake, &str)], first_kind: u64) -> Vec<Call> {
    let one = |(mistake, name): (Mistake, &str), kind: u64| {
        let found = (0..).map(|case| {
            let mut random = Random::new(SEED, kind, case);
            let mut settings = some_settings(&mut random);
            let mut side = 1;
            match mistake {
                Mistake::ChromaHalf | Mistake::OddPixelThroughTables => {
                    settings.sampling = YuvChromaSubsampling::Yuv422;
                }
                Mistake::SumOf8192(_) => {
                    settings.range = YuvRange::Full;
                    settings.matrix = YuvStandardMatrix::Smpte240;
                }
                Mistake::EqualWeights => {
                    settings.sampling = YuvChromaSubsampling::Yuv420;
                    side = 2;
                }
                Mistake::HalvesToEven => {
                    let mut half = || (4 * random.from(0, 2_047) + 1) as f32 / 16_384.0;
                    settings.range = YuvRange::Full;
                    settings.matrix = YuvStandardMatrix::Custom(half(), half());
                }
                Mistake::TiesUp | Mistake::BlueBeforeRed => {
                    // 1 − kr is a tie. The weight of green is 4,805, and 4,806 by either mistake.
                    let (kr, kb) = (f32::from_bits(0x3e40_ea16), f32::from_bits(0x3e03_a7ad));
                    settings.range = YuvRange::Limited;
                    settings.matrix = YuvStandardMatrix::Custom(kr, kb);
                }
                Mistake::NearestLinearOnly | Mistake::NearestGammaOnly => {
                    settings.sampling = YuvChromaSubsampling::Yuv420;
                    settings.rounding = TableRounding::Nearest;
                }
                Mistake::OtherDenominator | Mistake::OwnOfFull => {
                    let (kr, kb) = random::accepted_pair(&mut random);
                    settings.range = YuvRange::Limited;
                    settings.matrix = YuvStandardMatrix::Custom(kr, kb);
                }
                Mistake::AlphaFirst => settings.channels = YuvSourceChannels::Rgba,
                _ => settings.sampling = YuvChromaSubsampling::Yuv420,
            }
            let mut request = frame(&mut random, side, side, settings, [0; 4]);
            if WINDOW_MISTAKES.iter().any(|(other, _)| *other == mistake) {
                // One pixel, with one around it on each side.
                random::set_window(&mut random, &mut request, window(1, 1, 3, 3));
            }
            if is_of_grey(mistake) {
                random::paint_grey(&mut random, &mut request);
            }
            request
        });
        let caught = |request: &FrameRequest| {
            let lent = convert(mistake, request);
            let rows = greys_of(request).filter(|_| is_of_grey(mistake));
            match rows {
                Some(rows) => tint(&request.opening(), &rows, planes(&lent)).is_some(),
                None => lent != convert(Mistake::None, request),
            }
        };
        let request = thought_of(mistake).into_iter().chain(found).find(caught);
        call(name, request.expect("a frame that catches it"))
    };
    (list.iter().zip(first_kind..))
        .map(|(mistake, kind)| one(*mistake, kind))
        .collect()
}

/// 2 and 3: sides around 0 and 16,384, with all else as it must be.
fn sides() -> Vec<Call> {
    use YuvChromaSubsampling::{Yuv420, Yuv422};
    use YuvSourceChannels::{Bgra, Rgb};
    let mut calls = Vec::new();
    for (w, h, channels, sampling) in [
        (0, 1, Rgb, Yuv420),
        (1, 0, Rgb, Yuv420),
        (0, 0, Rgb, Yuv420),
        (0, 16_385, Rgb, Yuv420),
        (16_385, 0, Rgb, Yuv420),
        (16_383, 1, Rgb, Yuv420),
        (16_384, 1, Rgb, Yuv420),
        (16_385, 1, Rgb, Yuv420),
        (1, 16_383, Rgb, Yuv420),
        (1, 16_384, Rgb, Yuv420),
        (1, 16_385, Rgb, Yuv420),
        (16_383, 1, Bgra, Yuv422),
        (16_384, 1, Bgra, Yuv422),
        (1, 16_383, Bgra, Yuv422),
        (1, 16_384, Bgra, Yuv422),
        (16_385, 16_385, Rgb, Yuv420),
        (u32::MAX, 1, Rgb, Yuv420),
        (1, u32::MAX, Rgb, Yuv420),
    ] {
        let settings = Settings {
            channels,
            sampling,
            ..bt601(YuvRange::Full)
        };
        let mut request = painted(1, 1, settings, |_, _| [0; 3]);
        request.set_size(w, h);
        if u64::from(w) * u64::from(h) <= 16_385 {
            let shapes = request.shapes();
            request.set_strides(shapes.map(|shape| shape.row as u32));
            // Red where both sides are odd, so that the last chroma byte is as all others and the
            // planes are stored short.
            let pixels = match (w % 2 + h % 2, channels) {
                (2, Rgb) => vec![255, 0, 0],
                (2, _) => vec![0, 0, 255, 9],
                _ => Random::new(SEED, 200, u64::from(w ^ h)).bytes(12 * 3),
            };
            for (i, block) in [&pixels[..], &[1, 2, 3], &[4, 5], &[6]]
                .into_iter()
                .enumerate()
            {
                request.lent[i] = repeated(block, (shapes[i].row * shapes[i].rows) as usize);
            }
        }
        calls.push(call(format!("{w} and {h}"), request));
    }
    calls
}

/// 4: kr and kb around 0 and 0.5, and what is no number.
fn custom_limits() -> Vec<Call> {
    let least = f32::from_bits(1);
    let mut calls = Vec::new();
    for k in [
        -least,
        -0.0,
        0.0,
        least,
        0.5f32.next_down(),
        0.5,
        0.5f32.next_up(),
        f32::NAN,
        -f32::NAN,
        f32::from_bits(0x7f80_0001),
        f32::INFINITY,
        f32::NEG_INFINITY,
        1.0,
        -0.25,
    ] {
        for (kr, kb) in [(k, 0.125), (0.125, k)] {
            let mut random = Random::new(SEED, 300, u64::from(k.to_bits()));
            let settings = Settings {
                matrix: YuvStandardMatrix::Custom(kr, kb),
                ..some_settings(&mut random)
            };
            calls.push(call(
                format!("{k:?}"),
                frame(&mut random, 3, 2, settings, [0; 4]),
            ));
        }
    }
    calls
}

const BUFFERS: [&str; 4] = ["source", "Y", "U", "V"];

/// The request with another stride and length of one buffer.
fn with_buffer(request: &FrameRequest, i: usize, stride: u32, length: u64) -> FrameRequest {
    let mut changed = request.clone();
    let mut strides = request.strides();
    strides[i] = stride;
    changed.set_strides(strides);
    changed.lent[i] = repeated(&request.lent[i], length as usize);
    changed
}

/// The least length that holds all rows, and that of whole rows.
fn lengths(request: &FrameRequest, i: usize, stride: u32) -> (u64, u64) {
    let shape = request.shapes()[i];
    let stride = u64::from(stride);
    (stride * (shape.rows - 1) + shape.row, stride * shape.rows)
}

/// 6 to 12: lengths and strides of each buffer around those that decide.
fn boundaries() -> Vec<Call> {
    use YuvChromaSubsampling::{Yuv420, Yuv422};
    let mut calls = Vec::new();
    for (case, (w, h, channels, sampling, padding)) in [
        (5, 3, YuvSourceChannels::Rgb, Yuv420, [2, 3, 1, 4]),
        (4, 2, YuvSourceChannels::Bgra, Yuv422, [1, 2, 3, 2]),
        (2, 1, YuvSourceChannels::Bgr, Yuv420, [0; 4]),
    ]
    .into_iter()
    .enumerate()
    {
        let mut random = Random::new(SEED, 400, case as u64);
        let settings = Settings {
            channels,
            sampling,
            ..some_settings(&mut random)
        };
        let base = frame(&mut random, w, h, settings, padding);
        for i in 0..4 {
            let row = base.shapes()[i].row as u32;
            let stride = base.strides()[i];
            let (least, whole) = lengths(&base, i, stride);
            let mut changes: Vec<(String, u32, u64)> = [
                ("none", 0),
                ("one under the least", least - 1),
                ("the least", least),
                ("one above the least", least + 1),
                ("one under whole rows", whole - 1),
                ("whole rows", whole),
                ("one above whole rows", whole + 1),
                ("a row too many", whole + u64::from(stride)),
            ]
            .map(|(length, bytes)| (format!("length {length}"), stride, bytes))
            .into();
            for (text, stride) in [
                ("one under the row", row - 1),
                ("the row", row),
                ("one above the row", row + 1),
                ("0", 0),
            ] {
                let (least, whole) = lengths(&base, i, stride);
                changes.push((format!("stride {text}, whole rows"), stride, whole));
                changes.push((format!("stride {text}, the least"), stride, least));
            }
            changes.push(("stride the longest".to_string(), u32::MAX, whole));
            for (text, stride, length) in changes {
                let request = with_buffer(&base, i, stride, length);
                calls.push(call(format!("{} {text}", BUFFERS[i]), request));
            }
        }
    }
    calls
}

/// The longest stride in a frame of 16,384 rows: the products that need 64 bits.
fn long_strides() -> Vec<Call> {
    let mut calls = Vec::new();
    for sampling in [YuvChromaSubsampling::Yuv420, YuvChromaSubsampling::Yuv422] {
        let settings = Settings {
            sampling,
            ..bt601(YuvRange::Full)
        };
        let base = painted(1, 16_384, settings, |_, _| [9, 8, 7]);
        for i in 0..4 {
            let request = with_buffer(&base, i, u32::MAX, base.lent[i].len() as u64);
            calls.push(call(BUFFERS[i], request));
        }
    }
    calls
}

/// The conditions of a frame call, those that hold of a buffer once for each way.
const CONDITIONS: [&str; 15] = [
    "2",
    "3",
    "4",
    "6",
    "7",
    "8",
    "9",
    "10 stride",
    "10 length",
    "11 stride",
    "11 length",
    "12 source",
    "12 Y",
    "12 U",
    "12 V",
];

/// The request changed so that a condition holds.
fn with_condition(request: &FrameRequest, condition: &str) -> FrameRequest {
    let narrow = |i: usize| {
        let row = request.shapes()[i].row as u32;
        with_buffer(request, i, row - 1, request.lent[i].len() as u64)
    };
    let short = |i: usize| {
        let stride = request.strides()[i];
        let (least, _) = lengths(request, i, stride);
        with_buffer(request, i, stride, least - 1)
    };
    let long = |i: usize| {
        let stride = request.strides()[i];
        with_buffer(request, i, stride, request.lent[i].len() as u64 + 1)
    };
    let mut changed = request.clone();
    match condition {
        "2" => changed.set_size(0, request.frame.h),
        "3" => changed.set_size(request.frame.w, 16_385),
        "4" => changed.frame.settings.matrix = YuvStandardMatrix::Custom(0.3, f32::NAN),
        "6" => changed = short(0),
        "7" => changed = narrow(0),
        "8" => changed = narrow(1),
        "9" => changed = short(1),
        "10 stride" => changed = narrow(2),
        "10 length" => changed = short(2),
        "11 stride" => changed = narrow(3),
        "11 length" => changed = short(3),
        "12 source" => changed = long(0),
        "12 Y" => changed = long(1),
        "12 U" => changed = long(2),
        _ => changed = long(3),
    }
    changed
}

/// Two conditions at once, 14 aside, of which the one that is asked first is answered. It is made to
/// hold last: 2, 3 and 4 leave the buffers as they are.
fn two_conditions() -> Vec<Call> {
    let mut calls = Vec::new();
    for (higher, second) in CONDITIONS.into_iter().enumerate() {
        for first in &CONDITIONS[..higher] {
            let mut random = Random::new(SEED, 500, calls.len() as u64);
            let settings = some_settings(&mut random);
            let base = frame(&mut random, 3, 3, settings, [1, 2, 3, 4]);
            let request = with_condition(&with_condition(&base, second), first);
            calls.push(call(format!("{first} and {second}"), request));
        }
    }
    calls
}

/// Each condition alone, on a frame of nearest tables.
fn one_condition() -> Vec<Call> {
    let mut calls = Vec::new();
    for (condition, case) in CONDITIONS.into_iter().zip(0..) {
        let mut random = Random::new(SEED, 1_000, case);
        let settings = Settings {
            rounding: TableRounding::Nearest,
            ..some_settings(&mut random)
        };
        let base = frame(&mut random, 3, 3, settings, [1, 2, 3, 4]);
        calls.push(call(condition, with_condition(&base, condition)));
    }
    calls
}

/// Every combination of order, sampling and transfer with nearest tables; ranges and matrices are
/// any, Custom among them.
fn nearest_settings() -> Vec<Call> {
    let mut calls = Vec::new();
    for case in 0..4 * 2 * 4 {
        let mut random = Random::new(SEED, 1_100, case);
        let codes = [case % 4, case / 4 % 2, case / 8].map(|code| code as u8);
        let any = some_settings(&mut random);
        let meaning = "a code with a meaning";
        let settings = Settings {
            channels: channels_of(codes[0]).expect(meaning),
            sampling: sampling_of(codes[1]).expect(meaning),
            transfer: transfer_of(codes[2]).expect(meaning),
            matrix: if case % 7 == 6 {
                let (kr, kb) = random::accepted_pair(&mut random);
                YuvStandardMatrix::Custom(kr, kb)
            } else {
                any.matrix
            },
            rounding: TableRounding::Nearest,
            ..any
        };
        let (w, h) = (random.from(1, 9), random.from(1, 9));
        let padding = some_padding(&mut random);
        calls.push(call("", frame(&mut random, w, h, settings, padding)));
    }
    calls
}

/// Every combination of the settings, Custom as one matrix, with sides from 1 to 40.
fn all_settings() -> Vec<Call> {
    let mut calls = Vec::new();
    for case in 0..4 * 2 * 2 * 7 * 4 {
        let mut random = Random::new(SEED, 600, case);
        let mut rest = case;
        let mut below = |count: u64| {
            let code = rest % count;
            rest /= count;
            code as u8
        };
        let [channels, sampling, range] = [below(4), below(2), below(2)];
        let [matrix, transfer] = [below(7), below(4)];
        let codes = [channels, sampling, range, matrix % 6, transfer];
        let mut settings = settings_of(codes).expect("codes with a meaning");
        if matrix == 6 {
            let (kr, kb) = random::accepted_pair(&mut random);
            settings.matrix = YuvStandardMatrix::Custom(kr, kb);
        }
        let long = random.from(1, 40);
        let short = random.from(1, (80 / long).clamp(1, 40));
        let (w, h) = random.pick(&[(long, short), (short, long)]);
        let padding = some_padding(&mut random);
        calls.push(call("", frame(&mut random, w, h, settings, padding)));
    }
    calls
}

/// Pairs whose weights are exact halves before rounding, extremes, and the pairs of named matrices
/// as Custom, in both ranges; then pairs near halves.
fn custom_pairs() -> Vec<Call> {
    let half = |n: u16| f32::from(n) / 16_384.0;
    let mut calls = Vec::new();
    for (case, (kr, kb)) in [
        (half(2), 0.0),
        (half(1), 0.0),
        (0.0, half(2)),
        (0.0, half(1)),
        (half(1), half(1)),
        (half(4_897), half(1_869)),
        (half(3_481), half(1_183)),
        (half(8_191), half(8_191)),
        (0.0, 0.0),
        (-0.0, -0.0),
        (0.5, 0.0),
        (0.0, 0.5),
        (0.5, 0.5),
        (0.299, 0.114),
        (0.2126, 0.0722),
        (0.30, 0.11),
    ]
    .into_iter()
    .enumerate()
    {
        for range in [YuvRange::Limited, YuvRange::Full] {
            let mut random = Random::new(SEED, 700, case as u64);
            let settings = Settings {
                range,
                matrix: YuvStandardMatrix::Custom(kr, kb),
                ..some_settings(&mut random)
            };
            let padding = some_padding(&mut random);
            calls.push(call("", frame(&mut random, 7, 4, settings, padding)));
        }
    }
    for case in 0..24 {
        let mut random = Random::new(SEED, 800, case);
        let (kr, kb) = random::accepted_pair(&mut random);
        let settings = Settings {
            matrix: YuvStandardMatrix::Custom(kr, kb),
            ..some_settings(&mut random)
        };
        let (w, h) = (random.from(1, 8), random.from(1, 8));
        let padding = some_padding(&mut random);
        calls.push(call("", frame(&mut random, w, h, settings, padding)));
    }
    calls
}

/// Both sides near 40.
fn large() -> Vec<Call> {
    use SharpYuvGammaTransfer::*;
    use YuvChromaSubsampling::{Yuv420, Yuv422};
    use YuvSourceChannels::*;
    let mut calls = Vec::new();
    for (case, (w, h, channels, sampling, transfer)) in [
        (40, 40, Rgba, Yuv420, Srgb),
        (39, 39, Bgr, Yuv420, Gamma2p2),
        (39, 40, Rgb, Yuv422, Rec709),
        (40, 39, Bgra, Yuv422, Gamma2p8),
    ]
    .into_iter()
    .enumerate()
    {
        let mut random = Random::new(SEED, 900, case as u64);
        let settings = Settings {
            channels,
            sampling,
            transfer,
            ..some_settings(&mut random)
        };
        calls.push(call("", frame(&mut random, w, h, settings, [3, 2, 1, 5])));
    }
    calls
}

/// Every byte through both tables of a transfer: rows of two equal pixels, red from 0 to 255, once
/// with blue 0 and once with a blue that moves V by a half, so that V tells red from the next red.
fn ramps(rounding: TableRounding) -> Vec<Call> {
    let mut calls = Vec::new();
    for transfer in [0, 1, 2, 3].map(transfer_of) {
        let settings = Settings {
            sampling: YuvChromaSubsampling::Yuv422,
            transfer: transfer.expect("a code with a meaning"),
            rounding,
            ..bt601(YuvRange::Full)
        };
        let colour = |row: u32, _| [row as u8, 0, 10 * (row / 256) as u8];
        calls.push(call("", painted(2, 512, settings, colour)));
    }
    calls
}

fn window(left: u32, top: u32, source_width: u32, source_height: u32) -> Window {
    Window {
        left,
        top,
        source_width,
        source_height,
    }
}

/// An accepted frame as a rectangle of a larger source.
fn framed(
    random: &mut Random,
    (w, h): (u32, u32),
    window: Window,
    settings: Settings,
    padding: [u32; 4],
) -> FrameRequest {
    let mut request = frame(random, w, h, settings, padding);
    random::set_window(random, &mut request, window);
    request
}

/// 3 × 3 pixels of a source of 7 × 5, with rows and columns on each side.
fn some_framed(random: &mut Random) -> FrameRequest {
    let settings = some_settings(random);
    framed(random, (3, 3), window(2, 1, 7, 5), settings, [1, 2, 3, 4])
}

/// For each mistake in a condition a call that it answers otherwise.
fn slips() -> Vec<Call> {
    let mut calls = Vec::new();
    for ((slip, name), case) in FRAME_SLIPS.into_iter().zip(0..) {
        let mut random = Random::new(SEED, 1_200, case);
        let base = some_framed(&mut random);
        let row = base.shapes()[0].row as u32;
        let stride = base.strides()[0];
        let (least, _) = lengths(&base, 0, stride);
        let mut request = base.clone();
        let place = &mut request.frame.window;
        match slip {
            Slip::LengthOfRectangle => request = with_buffer(&base, 0, stride, least - 1),
            Slip::StrideOfRectangle => {
                let (least, _) = lengths(&base, 0, row - 1);
                request = with_buffer(&base, 0, row - 1, least);
            }
            Slip::RowsOfRectangle => {
                let rows = u64::from(stride) * u64::from(base.frame.h);
                request = with_buffer(&base, 0, stride, rows);
            }
            Slip::SidesOfRectangle => place.source_width = 16_385,
            Slip::NoSideIs2 => place.source_height = 0,
            Slip::SumWraps => place.left = u32::MAX - 2,
            Slip::EdgeIsOutside => place.left = 4,
            _ => {
                request = with_buffer(&base, 0, stride, least - 1);
                request.frame.window.top = 3;
            }
        }
        calls.push(call(name, request));
    }
    calls
}

/// Every order and sampling with rectangles inside, with odd sides; at the left and top edge; at
/// the right and bottom edge; and over the source's whole width or height.
fn windows() -> Vec<Call> {
    let mut calls = Vec::new();
    for case in 0..4 * 2 * 4 {
        let mut random = Random::new(SEED, 1_300, case);
        let codes = [case % 4, case / 4 % 2].map(|code| code as u8);
        let meaning = "a code with a meaning";
        let settings = Settings {
            channels: channels_of(codes[0]).expect(meaning),
            sampling: sampling_of(codes[1]).expect(meaning),
            rounding: random.pick(&[TableRounding::Truncated, TableRounding::Nearest]),
            ..some_settings(&mut random)
        };
        let (mut w, mut h) = (random.from(1, 7), random.from(1, 7));
        let [left, right, top, bottom] = [(); 4].map(|()| random.from(1, 4));
        let (why, [left, right, top, bottom]) = match case / 8 {
            0 => {
                (w, h) = (w | 1, h | 1);
                ("inside", [left, right, top, bottom])
            }
            1 => ("left and top edge", [0, right, 0, bottom]),
            2 => ("right and bottom edge", [left, 0, top, 0]),
            _ if case % 2 == 0 => ("whole width", [0, 0, top, bottom]),
            _ => ("whole height", [left, right, 0, 0]),
        };
        let window = window(left, top, left + w + right, top + h + bottom);
        let padding = some_padding(&mut random);
        let request = framed(&mut random, (w, h), window, settings, padding);
        calls.push(call(why, request));
    }
    calls
}

/// Rectangles of one source of 6 × 5: its corners, a column, a row, all of it, and odd and even
/// sides from odd and even places.
fn window_places() -> Vec<Call> {
    let mut calls = Vec::new();
    for (case, (w, h, left, top)) in [
        (1, 1, 0, 0),
        (1, 1, 5, 0),
        (1, 1, 0, 4),
        (1, 1, 5, 4),
        (1, 5, 3, 0),
        (6, 1, 0, 3),
        (6, 5, 0, 0),
        (5, 3, 1, 1),
        (4, 4, 1, 1),
        (3, 5, 2, 0),
        (2, 3, 3, 2),
        (5, 4, 0, 1),
    ]
    .into_iter()
    .enumerate()
    {
        let mut random = Random::new(SEED, 1_400, case as u64);
        let settings = some_settings(&mut random);
        let window = window(left, top, 6, 5);
        let padding = some_padding(&mut random);
        let request = framed(&mut random, (w, h), window, settings, padding);
        calls.push(call("", request));
    }
    calls
}

/// The last pixels of the longest rows and columns that a source may have. Eleven bytes come round
/// in it, which is no number of pixels, so that it is stored short and no two places near are alike.
fn far_corners() -> Vec<Call> {
    use YuvChromaSubsampling::{Yuv420, Yuv422};
    use YuvSourceChannels::*;
    let mut calls = Vec::new();
    for (case, (w, h, channels, sampling, place)) in [
        (1, 1, Rgb, Yuv420, window(16_383, 0, 16_384, 1)),
        (1, 1, Bgr, Yuv422, window(0, 16_383, 1, 16_384)),
        (2, 1, Rgba, Yuv422, window(16_382, 0, 16_384, 1)),
        (1, 2, Bgra, Yuv420, window(0, 16_382, 1, 16_384)),
    ]
    .into_iter()
    .enumerate()
    {
        let mut random = Random::new(SEED, 1_500, case as u64);
        let settings = Settings {
            channels,
            sampling,
            ..some_settings(&mut random)
        };
        let mut request = framed(&mut random, (w, h), place, settings, [0; 4]);
        request.lent[0] = repeated(&random.bytes(11), request.lent[0].len());
        calls.push(call("", request));
    }
    calls
}

/// 3 and 14: where a rectangle of 3 × 2 lies in a source of 6 × 4, around the edges and around
/// 2^32; and other sides of the source, over the bytes of that one.
fn window_limits() -> Vec<Call> {
    const MAX: u32 = u32::MAX;
    let mut calls = Vec::new();
    for (case, (w, h, place)) in [
        (3, 2, window(3, 2, 6, 4)),
        (3, 2, window(4, 2, 6, 4)),
        (3, 2, window(3, 3, 6, 4)),
        (3, 2, window(4, 3, 6, 4)),
        (3, 2, window(6, 0, 6, 4)),
        (3, 2, window(0, 4, 6, 4)),
        (3, 2, window(MAX, 1, 6, 4)),
        (3, 2, window(MAX - 2, 1, 6, 4)),
        (3, 2, window(MAX - 1, 1, 6, 4)),
        (3, 2, window(1, MAX, 6, 4)),
        (3, 2, window(1, MAX - 1, 6, 4)),
        (3, 2, window(MAX, MAX, 6, 4)),
        (3, 2, window(1 << 31, 1 << 31, 6, 4)),
        (3, 2, window(65_536, 0, 6, 4)),
        (3, 2, window(0, 0, 0, 4)),
        (3, 2, window(0, 0, 6, 0)),
        (3, 2, window(0, 0, 0, 0)),
        (3, 2, window(MAX - 2, MAX - 1, 0, 0)),
        (3, 2, window(0, 0, 2, 4)),
        (3, 2, window(0, 0, 6, 1)),
        (3, 2, window(0, 0, 16_384, 4)),
        (3, 2, window(0, 0, 16_385, 4)),
        (3, 2, window(0, 0, 6, 16_385)),
        (3, 2, window(0, 0, MAX, 4)),
        (3, 2, window(1, 1, 6, MAX)),
        (3, 2, window(MAX, MAX, MAX, MAX)),
        (0, 2, window(0, 0, 0, 4)),
        (0, 2, window(7, 0, 6, 4)),
        (16_385, 2, window(0, 0, 0, 0)),
    ]
    .into_iter()
    .enumerate()
    {
        let mut random = Random::new(SEED, 1_600, case as u64);
        let settings = some_settings(&mut random);
        let mut request = framed(&mut random, (3, 2), window(1, 1, 6, 4), settings, [0; 4]);
        (request.frame.w, request.frame.h, request.frame.window) = (w, h, place);
        calls.push(call("", request));
    }
    calls
}

/// 6, 7 and 12 of a source larger than the rectangle: lengths and strides around those of the
/// source, and those of the rectangle.
fn window_boundaries() -> Vec<Call> {
    let mut random = Random::new(SEED, 1_700, 0);
    let base = some_framed(&mut random);
    let shape = base.shapes()[0];
    let (row, stride) = (shape.row as u32, base.strides()[0]);
    let c = base.frame.settings.channels.bytes();
    let rectangle = u64::from(base.frame.w) * c;
    let rows = u64::from(base.frame.h);
    let (least, whole) = lengths(&base, 0, stride);
    let mut changes: Vec<(&str, u32, u64)> = [
        ("no byte", 0),
        ("one under the least", least - 1),
        ("the least", least),
        ("one above the least", least + 1),
        ("one under whole rows", whole - 1),
        ("one above whole rows", whole + 1),
        ("the rectangle's rows", u64::from(stride) * rows),
        (
            "up to the rectangle's last row",
            u64::from(stride) * (rows + 1),
        ),
        ("all but what is right of the rectangle", least - 2 * c),
    ]
    .map(|(why, length)| (why, stride, length))
    .into();
    for (why, stride) in [
        ("stride one under the row", row - 1),
        ("stride the row", row),
        ("stride one above the row", row + 1),
        ("stride the rectangle's row", rectangle as u32),
    ] {
        let (least, whole) = lengths(&base, 0, stride);
        changes.push((why, stride, whole));
        if least != whole {
            changes.push((why, stride, least));
        }
    }
    changes.push(("stride the longest", u32::MAX, whole));
    (changes.into_iter())
        .map(|(why, stride, length)| call(why, with_buffer(&base, 0, stride, length)))
        .collect()
}

/// 14 with each other condition.
fn outside_and_another() -> Vec<Call> {
    let mut calls = Vec::new();
    for (other, case) in CONDITIONS.into_iter().zip(0..) {
        let mut random = Random::new(SEED, 1_800, case);
        let base = some_framed(&mut random);
        let mut request = with_condition(&base, other);
        let place = &mut request.frame.window;
        if case % 2 == 0 {
            place.left = place.source_width + 1;
        } else {
            place.top = place.source_height + 1;
        }
        calls.push(call(other, request));
    }
    calls
}

/// A grey rectangle of a coloured source, with at least a row and a column of it on each side.
fn grey_inside(
    random: &mut Random,
    (w, h): (u32, u32),
    (left, top): (u32, u32),
    settings: Settings,
    grey: impl Fn(u32, u32) -> u8,
) -> FrameRequest {
    let window = window(left, top, left + w + 1, top + h + 1);
    let padding = some_padding(random);
    let mut request = framed(random, (w, h), window, settings, padding);
    request.lent[0] = random.bytes(request.lent[0].len());
    request.paint(grey);
    request
}

/// Every order and sampling with grey rectangles from odd and even places, all transfers, both
/// roundings; then 4:2:2 with odd widths, whose last pixel has a coloured one beside it.
fn grey_rectangles() -> Vec<Call> {
    let mut calls = Vec::new();
    for case in 0..12 {
        let mut random = Random::new(SEED, 1_900, case);
        let code = |n: u64| n as u8;
        let meaning = "a code with a meaning";
        let settings = Settings {
            channels: channels_of(code(case % 4)).expect(meaning),
            sampling: sampling_of(code((case / 4).min(1))).expect(meaning),
            transfer: transfer_of(code((case + case / 4) % 4)).expect(meaning),
            rounding: rounding_of(code(case / 2 % 2)).expect(meaning),
            ..some_settings(&mut random)
        };
        let (size, why) = if case < 8 {
            ((random.from(2, 6), random.from(2, 6)), "rectangle")
        } else {
            ((2 * (case as u32 - 8) + 1, 2), "odd width in 4:2:2")
        };
        let place = (random.from(1, 3), random.from(1, 3));
        let greys = random.bytes(64);
        let grey = |row: u32, column: u32| greys[(7 * row + column) as usize];
        let request = grey_inside(&mut random, size, place, settings, grey);
        calls.push(call(why, request));
    }
    calls
}

/// Black and white, mixed in squares, single pixels, rows and columns, inside a coloured source: in
/// limited range with every named matrix, Bt601 in both samplings.
fn black_and_white() -> Vec<Call> {
    let mut calls = Vec::new();
    let pattern: [(&str, fn(u32, u32) -> u32); 4] = [
        ("squares", |row, column| row / 2 + column / 2),
        ("single pixels", |row, column| row + column),
        ("rows", |row, _| row),
        ("columns", |_, column| column),
    ];
    for case in 0..9 {
        let mut random = Random::new(SEED, 2_000, case);
        let (why, bright) = pattern[case as usize % 4];
        // Bt601 with each pattern, then the others.
        let settings = Settings {
            range: YuvRange::Limited,
            matrix: matrix_of(case.saturating_sub(3) as u8).expect("a code with a meaning"),
            sampling: sampling_of((case / 2 % 2) as u8).expect("a code with a meaning"),
            ..some_settings(&mut random)
        };
        let grey = |row: u32, column: u32| 255 * (bright(row, column) % 2) as u8;
        let request = grey_inside(&mut random, (5, 3), (1, 1), settings, grey);
        calls.push(call(why, request));
    }
    calls
}

/// Pairs at the ends, and next to them, in both ranges.
fn grey_pairs() -> Vec<Call> {
    let (least, below) = (f32::from_bits(1), 0.5f32.next_down());
    let mut calls = Vec::new();
    for (case, (kr, kb)) in [
        (0.0, 0.0),
        (0.5, 0.0),
        (0.0, 0.5),
        (0.5, 0.5),
        (-0.0, below),
        (below, least),
        (f32::MIN_POSITIVE, least),
        (0.5, 2f32.powi(-14)),
    ]
    .into_iter()
    .enumerate()
    {
        for range in [YuvRange::Limited, YuvRange::Full] {
            let mut random = Random::new(SEED, 2_100, case as u64);
            let settings = Settings {
                range,
                matrix: YuvStandardMatrix::Custom(kr, kb),
                ..some_settings(&mut random)
            };
            let greys = random.bytes(12);
            let grey = |row: u32, column: u32| match row {
                0 => 255 * (column % 2) as u8,
                _ => greys[(4 * row + column) as usize],
            };
            let request = grey_inside(&mut random, (3, 3), (1, 2), settings, grey);
            calls.push(call(format!("{kr:?} and {kb:?}"), request));
        }
    }
    calls
}

/// Every grey, with luma weights that add to one more than 8,192 and to one less than 7,036.
fn all_greys() -> Vec<Call> {
    use YuvChromaSubsampling::{Yuv420, Yuv422};
    let mut calls = Vec::new();
    for (matrix, range, sampling) in [
        (YuvStandardMatrix::Smpte240, YuvRange::Full, Yuv422),
        (YuvStandardMatrix::Bt2020, YuvRange::Limited, Yuv420),
    ] {
        let settings = Settings {
            sampling,
            matrix,
            ..bt601(range)
        };
        let grey = |row: u32, column: u32| [(16 * row + column) as u8; 3];
        calls.push(call("", painted(16, 16, settings, grey)));
    }
    calls
}
