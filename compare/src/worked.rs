//! The worked lines of the requests, in the model and, where it can answer, in the
//! oracle.

use crate::check::{Converters, frame_of};
use crate::request::{FrameRequest, answer_text, hex, shapes};
use model::curves::{gamma_entry, linear_entry, tables};
use model::matrix::{Weights, weights};
use model::row::{chroma, interpolate};
use model::{
    Frame, Settings, SharpYuvGammaTransfer, TableRounding, Window, YuvChromaSubsampling, YuvRange,
    YuvSourceChannels, YuvStandardMatrix,
};

const TRANSFERS: [SharpYuvGammaTransfer; 4] = [
    SharpYuvGammaTransfer::Srgb,
    SharpYuvGammaTransfer::Rec709,
    SharpYuvGammaTransfer::Gamma2p2,
    SharpYuvGammaTransfer::Gamma2p8,
];

const SAMPLINGS: [YuvChromaSubsampling; 2] =
    [YuvChromaSubsampling::Yuv420, YuvChromaSubsampling::Yuv422];

const ROUNDINGS: [TableRounding; 2] = [TableRounding::Truncated, TableRounding::Nearest];

/// Counts the lines that hold and says which do not.
struct Lines {
    held: u64,
    wrong: Vec<String>,
}

impl Lines {
    fn equal<T: PartialEq + std::fmt::Debug>(&mut self, line: &str, is: T, should: T) {
        if is == should {
            self.held += 1;
        } else {
            self.wrong
                .push(format!("{line}: is {is:?}, should be {should:?}"));
        }
    }
}

/// The number of facts that hold, or those that do not.
pub fn check(converters: &Converters) -> Result<u64, Vec<String>> {
    let mut lines = Lines {
        held: 0,
        wrong: Vec::new(),
    };
    colours(&mut lines, converters);
    entries(&mut lines);
    nearest_entries(&mut lines);
    matrices(&mut lines);
    neighbours(&mut lines, converters);
    tens(&mut lines, converters);
    limits(&mut lines, converters);
    windows(&mut lines, converters);
    let input = [1, 0, 1, 0, 0, 1, 1, 0, 0, 0xff, 0, 0];
    for converter in converters {
        if let Some(output) = converter.program(&input) {
            lines.equal("frame given 01 00 01 00 ..", output, vec![0x4c, 0x55, 0xff]);
        }
    }
    if lines.wrong.is_empty() {
        Ok(lines.held)
    } else {
        Err(lines.wrong)
    }
}

/// An accepted frame without padding. `colour` gives r, g, b by row and column.
pub fn painted(
    w: u32,
    h: u32,
    settings: Settings,
    colour: impl Fn(u32, u32) -> [u8; 3],
) -> FrameRequest {
    let all = shapes(w, h, (w, h), &settings);
    let strides = all.map(|shape| shape.row as u32);
    let c = settings.channels.bytes() as usize;
    let mut lent = all.map(|shape| vec![7; (shape.row * shape.rows) as usize]);
    for (pixel, i) in lent[0].chunks_exact_mut(c).zip(0..) {
        let rgb = colour(i / w, i % w);
        let offsets = settings.channels.offsets();
        for (offset, value) in offsets.into_iter().zip(rgb) {
            pixel[offset] = value;
        }
    }
    FrameRequest {
        frame: Frame {
            w,
            h,
            window: Window::whole(w, h),
            settings,
            source_stride: strides[0],
            y_stride: strides[1],
            u_stride: strides[2],
            v_stride: strides[3],
        },
        lent,
    }
}

pub fn bt601(range: YuvRange) -> Settings {
    Settings {
        channels: YuvSourceChannels::Rgb,
        sampling: YuvChromaSubsampling::Yuv420,
        range,
        matrix: YuvStandardMatrix::Bt601,
        transfer: SharpYuvGammaTransfer::Srgb,
        rounding: TableRounding::Truncated,
    }
}

/// Every sampling with the tables of every transfer and rounding.
fn sampled_tables()
-> impl Iterator<Item = (YuvChromaSubsampling, SharpYuvGammaTransfer, TableRounding)> {
    let tables = || TRANSFERS.iter().flat_map(|t| ROUNDINGS.map(|r| (*t, r)));
    SAMPLINGS
        .into_iter()
        .flat_map(move |sampling| tables().map(move |(t, r)| (sampling, t, r)))
}

/// Red, green, black and white; what a line does not name, in every way.
fn colours(lines: &mut Lines, converters: &Converters) {
    use YuvSourceChannels::*;
    for channels in [Rgb, Rgba, Bgra, Bgr] {
        for (sampling, transfer, rounding) in sampled_tables() {
            let with = |range| Settings {
                channels,
                sampling,
                transfer,
                rounding,
                ..bt601(range)
            };
            for converter in converters {
                let mut one = |line: &str, request: FrameRequest, should: [u8; 3]| {
                    let (answer, after) = frame_of(&**converter, &request);
                    let line =
                        format!("{line}, {:?}, {}", request.frame.settings, converter.name());
                    lines.equal(&line, answer_text(&answer), "0 0 0".to_string());
                    for (plane, byte) in after.lent[1..].iter().zip(should) {
                        lines.equal(&line, hex(plane), hex(&vec![byte; plane.len()]));
                    }
                };
                let red = painted(1, 1, with(YuvRange::Full), |_, _| [255, 0, 0]);
                one("red", red, [76, 85, 255]);
                if sampling == YuvChromaSubsampling::Yuv422 {
                    let green = painted(1, 1, with(YuvRange::Limited), |_, _| [0, 255, 0]);
                    one("green", green, [145, 54, 34]);
                }
                for (w, h) in [(1, 1), (1, 2), (2, 1), (2, 2), (3, 3), (4, 5)] {
                    let black = painted(w, h, with(YuvRange::Limited), |_, _| [0; 3]);
                    one("black", black, [16, 128, 128]);
                    let white = painted(w, h, with(YuvRange::Limited), |_, _| [255; 3]);
                    one("white", white, [235, 128, 128]);
                }
            }
        }
    }
}

/// Truncated table entries, in the model and in the unaltered Rust: none of those named here
/// differs. The oracle has its tables from the model, so all entries are held to the unaltered
/// Rust's as well, which has them from f32 arithmetic: few may differ, and by 1.
fn entries(lines: &mut Lines) {
    let truncated = TableRounding::Truncated;
    let [srgb, rec709, gamma2p2, _] = TRANSFERS;
    for (transfer, v, n) in [
        (srgb, 1, 19),
        (srgb, 10, 198),
        (srgb, 255, 65_535),
        (rec709, 20, 1_142),
        (gamma2p2, 254, 64_970),
    ] {
        let line = format!("{transfer:?} linear {v}");
        lines.equal(&line, linear_entry(transfer, truncated, v), n);
        let rust = oracle::unaltered::tables(transfer);
        lines.equal(&line, rust.linear[usize::from(v)], n);
    }
    for (transfer, i, k) in [
        (srgb, 198, 9),
        (srgb, 199, 10),
        (rec709, 1_142, 19),
        (rec709, 1_183, 20),
    ] {
        let line = format!("{transfer:?} gamma {i}");
        lines.equal(&line, gamma_entry(transfer, truncated, i), k);
        let rust = oracle::unaltered::tables(transfer);
        lines.equal(&line, rust.gamma[usize::from(i)], k);
    }
    let (differing, _) = oracle::differing_entries();
    let near = differing
        .iter()
        .all(|entry| entry.rust.abs_diff(entry.exact) == 1);
    let line = format!("{} entries unlike the unaltered Rust's", differing.len());
    lines.equal(&line, near && differing.len() <= 50, true);
}

/// Nearest table entries, in the model: the worked ones, and the two whose exact halves go upward.
/// All are held to f64 arithmetic as well.
fn nearest_entries(lines: &mut Lines) {
    let nearest = TableRounding::Nearest;
    let [srgb, rec709, gamma2p2, _] = TRANSFERS;
    for (transfer, v, n) in [
        (srgb, 1, 20),
        (srgb, 10, 199),
        (srgb, 255, 65_535),
        (rec709, 20, 1_142),
        (gamma2p2, 254, 64_971),
    ] {
        let line = format!("{transfer:?} Nearest linear {v}");
        lines.equal(&line, linear_entry(transfer, nearest, v), n);
    }
    for (transfer, i, k) in [
        (srgb, 199, 10),
        (rec709, 256, 4),
        (rec709, 257, 5),
        (rec709, 770, 13),
        (rec709, 771, 14),
        (rec709, 1_142, 20),
    ] {
        let line = format!("{transfer:?} Nearest gamma {i}");
        lines.equal(&line, gamma_entry(transfer, nearest, i), k);
    }
    for transfer in TRANSFERS {
        let exact = tables(transfer, nearest);
        let (linear, gamma) = nearest_by_f64(transfer);
        let line = format!("{transfer:?} Nearest by f64 arithmetic");
        lines.equal(&line, exact.linear == linear, true);
        lines.equal(&line, exact.gamma == gamma, true);
    }
}

/// Both tables as f64 arithmetic has them: it is exact at the halves that occur and near enough at
/// all else.
fn nearest_by_f64(transfer: SharpYuvGammaTransfer) -> (Vec<u16>, Vec<u8>) {
    let [slope, break_at, scale, power] = match transfer {
        SharpYuvGammaTransfer::Srgb => [12.92, 0.003041282560128, 1.055010718947587, 2.4],
        SharpYuvGammaTransfer::Rec709 => [4.5, 0.018053968510807, 1.099296826809442, 20.0 / 9.0],
        SharpYuvGammaTransfer::Gamma2p2 => [1.0, 0.0, 1.0, 2.2],
        SharpYuvGammaTransfer::Gamma2p8 => [1.0, 0.0, 1.0, 2.8],
    };
    let linearize = |x: f64| {
        if x < slope * break_at {
            x / slope
        } else {
            ((x + (scale - 1.0)) / scale).powf(power)
        }
    };
    let gamma = |x: f64| {
        if x < break_at {
            x * slope
        } else {
            scale * x.powf(1.0 / power) - (scale - 1.0)
        }
    };
    let linear_entry = |v: u32| (linearize(f64::from(v) / 255.0) * 65_535.0).round() as u16;
    let gamma_entry = |i: u32| (gamma(f64::from(i) / 65_535.0) * 255.0).round() as u8;
    (
        (0..=255).map(linear_entry).collect(),
        (0..=65_535).map(gamma_entry).collect(),
    )
}

/// Fcc Full, pairs whose weights are exact halves before rounding, and that the stored sets, Fcc
/// and these pairs have the Rust's weights.
fn matrices(lines: &mut Lines) {
    let fcc = Weights {
        y: [2458, 4833, 901],
        cb: [-1381, -2715, 4096],
        cr: [4096, -3452, -644],
    };
    lines.equal(
        "Fcc Full",
        weights(YuvStandardMatrix::Fcc, YuvRange::Full),
        fcc,
    );
    // 0.5 and 8,191.5 before rounding: the triple adds to 8,193.
    let halves = YuvStandardMatrix::Custom(2f32.powi(-14), 0.0);
    let luma = weights(halves, YuvRange::Full).y;
    lines.equal("Custom(2^-14, 0) Full", luma, [1, 8_192, 0]);
    for matrix in [
        YuvStandardMatrix::Bt601,
        YuvStandardMatrix::Bt709,
        YuvStandardMatrix::Bt2020,
        YuvStandardMatrix::Smpte240,
        YuvStandardMatrix::Bt470_6,
        YuvStandardMatrix::Fcc,
        halves,
        YuvStandardMatrix::Custom(2f32.powi(-13), 0.0),
        YuvStandardMatrix::Custom(-0.0, -0.0),
        YuvStandardMatrix::Custom(0.5, 0.5),
        YuvStandardMatrix::Custom(0.299, 0.114),
    ] {
        for range in [YuvRange::Limited, YuvRange::Full] {
            let line = format!("{matrix:?} {range:?}");
            let rust = oracle::unaltered::weights(matrix, range, true);
            lines.equal(&line, weights(matrix, range), rust);
        }
    }
    let smpte240 = weights(YuvStandardMatrix::Smpte240, YuvRange::Full).y;
    lines.equal("Smpte240 Full's luma weights", smpte240.iter().sum(), 8_193);
}

/// Linear 65,535 with all its neighbours 0, as a number and as a frame of red and black.
fn neighbours(lines: &mut Lines, converters: &Converters) {
    let nine = interpolate([(9, 65_535), (3, 0), (3, 0), (1, 0)]);
    let twelve = interpolate([(12, 65_535), (4, 0)]);
    lines.equal("weight 9", nine, 36_863);
    lines.equal("weight 12", twelve, 49_151);
    let [yuv420, yuv422] = SAMPLINGS;
    for (transfer, rounding) in TRANSFERS.iter().flat_map(|t| ROUNDINGS.map(|r| (*t, r))) {
        for (sampling, w, h, index) in [
            (yuv420, 2, 2, 36_863),
            (yuv420, 1, 2, 49_151),
            (yuv422, 2, 1, 49_151),
        ] {
            let settings = Settings {
                sampling,
                transfer,
                rounding,
                ..bt601(YuvRange::Full)
            };
            let red = i64::from(tables(transfer, rounding).gamma[index]);
            let weights = weights(settings.matrix, settings.range);
            let (u, v) = chroma(&weights, settings.range, [red, 0, 0]);
            let first = |row, column| {
                if row + column == 0 {
                    [255, 0, 0]
                } else {
                    [0; 3]
                }
            };
            for converter in converters {
                let (_, after) = frame_of(&**converter, &painted(w, h, settings, first));
                let line = format!("red beside black, {settings:?}, {}", converter.name());
                lines.equal(&line, (after.lent[2][0], after.lent[3][0]), (u, v));
            }
        }
    }
}

/// A flat red of 10 under Srgb: by truncated tables its chroma is that of 9, by nearest ones its own.
fn tens(lines: &mut Lines, converters: &Converters) {
    let [yuv420, yuv422] = SAMPLINGS;
    for (rounding, v) in ROUNDINGS.into_iter().zip([132, 133]) {
        for (sampling, w, h) in [(yuv420, 1, 1), (yuv420, 2, 2), (yuv422, 2, 1)] {
            let settings = Settings {
                sampling,
                rounding,
                ..bt601(YuvRange::Full)
            };
            for converter in converters {
                let request = painted(w, h, settings, |_, _| [10, 0, 0]);
                let (_, after) = frame_of(&**converter, &request);
                let line = format!("a red of 10, {settings:?}, {}", converter.name());
                lines.equal(&line, hex(&after.lent[3]), hex(&[v]));
            }
        }
    }
}

/// A line for each transfer and rounding: how many values of a channel that is the same in all
/// pixels both tables bring back, and how far off the others are at most. Equal linear values are
/// interpolated to themselves.
pub fn flat_colours() -> String {
    let mut text =
        "| transfer | rounding | come back, of 256 | farthest |\n|---|---|---|---|".to_string();
    for (transfer, rounding) in TRANSFERS.iter().flat_map(|t| ROUNDINGS.map(|r| (*t, r))) {
        let exact = tables(transfer, rounding);
        let off = |v: u8| {
            let linear = exact.linear[usize::from(v)];
            exact.gamma[usize::from(linear)].abs_diff(v)
        };
        let back = (0..=255).filter(|v| off(*v) == 0).count();
        let farthest = (0..=255).map(off).max().unwrap_or(0);
        text += &format!("\n| {transfer:?} | {rounding:?} | {back} | {farthest} |");
    }
    text
}

/// The lines that are not starred, on every converter that has the answer.
fn limits(lines: &mut Lines, converters: &Converters) {
    let plain = bt601(YuvRange::Full);
    let custom = |k| Settings {
        matrix: YuvStandardMatrix::Custom(k, k),
        ..plain
    };
    let padded = |y_length: usize| {
        let mut request = painted(2, 2, plain, |_, _| [1, 2, 3]);
        request.frame.y_stride = 5;
        request.lent[1].resize(y_length, 7);
        request
    };
    for (line, request, number, text) in [
        (
            "w 16,384",
            painted(16_384, 1, plain, |_, _| [9; 3]),
            0,
            "0 0 0",
        ),
        (
            "w 16,385",
            painted(16_385, 1, plain, |_, _| [9; 3]),
            3,
            "3 0 0",
        ),
        (
            "Custom 0.5",
            painted(1, 1, custom(0.5), |_, _| [9; 3]),
            0,
            "0 0 0",
        ),
        (
            "next above 0.5",
            painted(1, 1, custom(0.5f32.next_up()), |_, _| [9; 3]),
            4,
            "4 0 0",
        ),
        ("Y under its minimum", padded(6), 9, "9 7 6"),
        ("Y at its minimum", padded(7), 12, "12 10 7"),
    ] {
        for converter in converters.iter().filter(|converter| converter.has(number)) {
            let (answer, _) = frame_of(&**converter, &request);
            let line = format!("{line}, {}", converter.name());
            lines.equal(&line, answer_text(&answer), text.to_string());
        }
    }
}

/// Red in a white source of 4 × 4 is found by a window of one pixel and by no other; the window must
/// lie in the source, however left and width add up.
fn windows(lines: &mut Lines, converters: &Converters) {
    use YuvSourceChannels::*;
    let (red, white) = ([76, 85, 255], [255, 128, 128]);
    let places = || (0..4).flat_map(|top| (0..4).map(move |left| (left, top)));
    for (channels, sampling) in [Rgb, Rgba, Bgra, Bgr]
        .iter()
        .flat_map(|channels| SAMPLINGS.map(|sampling| (*channels, sampling)))
    {
        let settings = Settings {
            channels,
            sampling,
            ..bt601(YuvRange::Full)
        };
        let source = painted(4, 4, settings, |row, column| {
            if (row, column) == (2, 1) {
                [255, 0, 0]
            } else {
                [255; 3]
            }
        });
        let seen = |window: Window| {
            let mut request = painted(1, 1, settings, |_, _| [0; 3]);
            request.lent[0] = source.lent[0].clone();
            request.frame.source_stride = source.frame.source_stride;
            request.frame.window = window;
            request
        };
        let whole = Window::whole(4, 4);
        for (converter, (left, top)) in
            (converters.iter()).flat_map(|converter| places().map(move |place| (converter, place)))
        {
            let (answer, after) = frame_of(&**converter, &seen(Window { left, top, ..whole }));
            let line = format!(
                "window at {left}, {top}, {settings:?}, {}",
                converter.name()
            );
            lines.equal(&line, answer_text(&answer), "0 0 0".to_string());
            let should = if (left, top) == (1, 2) { red } else { white };
            let [_, y, u, v] = &after.lent;
            lines.equal(&line, [y[0], u[0], v[0]], should);
        }
        for (left, top, source_width, source_height, number) in [
            (4, 0, 4, 4, 14),
            (0, 4, 4, 4, 14),
            (u32::MAX, 0, 4, 4, 14),
            (0, u32::MAX, 4, 4, 14),
            (0, 0, 0, 4, 14),
            (0, 0, 4, 0, 14),
            (u32::MAX, 0, 16_385, 4, 3),
        ] {
            let request = seen(Window {
                left,
                top,
                source_width,
                source_height,
            });
            for converter in converters.iter().filter(|converter| converter.has(number)) {
                let (answer, _) = frame_of(&**converter, &request);
                let line = format!("{:?}, {}", request.frame.window, converter.name());
                lines.equal(&line, answer_text(&answer), format!("{number} 0 0"));
            }
        }
    }
}
