//! Times this converter and the unaltered Rust on the same frames, in one run, on one thread; several frames in one call beside single calls; a
//! desk's steps beside band calls; a count of colours beside a loop in C; shift files beside memcpy; their summaries beside a sum in C; two of them
//! paired beside memcmp; and Y4M files beside memcpy.
//!
//! Each figure is the least of many turns. The two, or a frame's forms, take turns, so that a busy
//! moment of the machine falls on both alike.
mod convoy;
mod desk;
mod pairs;
mod shift;
mod summary;
mod y4m;

use segvartin::{FrameDescription, FrameOptions, FrameState, TableRounding, Window, YuvChromaSubsampling, YuvSourceChannels};
use std::time::Instant;
use yuvutils_unaltered::sharpyuv::*;
use yuvutils_unaltered::{BufferStoreMut, YuvPlanarImageMut, YuvRange, YuvStandardMatrix};

// What is asked of the figures at 1,920 x 1,080: times the Rust; per cent over one call; per cent of one rounding over the other; per cent of a
// window over its rectangle copied out.
const LEAST_RATIO: f64 = 2.2;
const MOST_OVER_16: f64 = 12.;
const MOST_OVER_120: f64 = 3.;
const MOST_APART: f64 = 3.;
const MOST_OVER_COPIED: f64 = 5.;

// Milliseconds of a count of colours.
const MOST_OF_COUNTS: f64 = 100.;

const TURNS: usize = 100;
const TURNS_OF_COUNTS: usize = 25;

/// Where a window begins in its source, in pixels.
const LEFT: usize = 961;
const TOP: usize = 541;

const CHANNELS: [YuvSourceChannels; 4] =
    [YuvSourceChannels::Rgb, YuvSourceChannels::Rgba, YuvSourceChannels::Bgra, YuvSourceChannels::Bgr];
const CHROMA: [YuvChromaSubsampling; 2] = [YuvChromaSubsampling::Yuv420, YuvChromaSubsampling::Yuv422];
const ORDERS: [(&str, usize); 4] = [("Rgb", 3), ("Rgba", 4), ("Bgra", 4), ("Bgr", 3)];
const SAMPLINGS: [&str; 2] = ["4:2:0", "4:2:2"];

/// What a frame shows.
#[derive(Clone, Copy)]
enum Content {
    /// Every byte at random: the hardest for the tables.
    Noise,
    /// A slope over the frame with a little noise, as a camera's.
    Smooth,
}

/// A frame, its three planes and a carried row.
struct Frame {
    width: usize,
    height: usize,
    order: usize,
    sampling: usize,
    source: Vec<u8>,
    y: Vec<u8>,
    u: Vec<u8>,
    v: Vec<u8>,
    carried: Vec<u8>,
}

impl Frame {
    fn new(content: Content, width: usize, height: usize, order: usize, sampling: usize) -> Frame {
        let mut state = 12345u32;
        let bytes = ORDERS[order].1;
        let source = (0..width * height * bytes)
            .map(|i| {
                state = state.wrapping_mul(1664525).wrapping_add(1013904223);
                let noise = (state >> 24) as u8;
                let pixel = i / bytes;
                match content {
                    Content::Noise => noise,
                    Content::Smooth => (pixel % width * 200 / width + pixel / width * 40 / height) as u8 + noise % 8,
                }
            })
            .collect();
        let rows = if sampling == 0 { height.div_ceil(2) } else { height };
        let chroma = vec![0; width.div_ceil(2) * rows];
        Frame { width, height, order, sampling, source, y: vec![0; width * height], u: chroma.clone(), v: chroma, carried: vec![0; 3 * width] }
    }

    /// The three planes, as the last call left them.
    fn planes(&self) -> [Vec<u8>; 3] {
        [self.y.clone(), self.u.clone(), self.v.clone()]
    }

    fn stride(&self) -> usize {
        self.width * ORDERS[self.order].1
    }

    fn description(&self) -> FrameDescription {
        let chroma = self.width.div_ceil(2) as u32;
        FrameDescription {
            width: self.width as u32,
            height: self.height as u32,
            channels: CHANNELS[self.order],
            sampling: CHROMA[self.sampling],
            range: segvartin::YuvRange::Full,
            matrix: segvartin::YuvStandardMatrix::Bt601,
            transfer: segvartin::SharpYuvGammaTransfer::Srgb,
            y_stride: self.width as u32,
            u_stride: chroma,
            v_stride: chroma,
        }
    }

    /// One call.
    fn ours(&mut self) {
        let (frame, stride) = (self.description(), self.stride() as u32);
        segvartin::rgbx_to_sharp_yuv(&frame, &self.source, stride, &mut self.y, &mut self.u, &mut self.v).unwrap();
    }

    /// One call with the tables rounded to the nearest.
    fn nearest(&mut self) {
        let (frame, stride) = (self.description(), self.stride() as u32);
        let mut options = FrameOptions::of(&frame);
        options.rounding = TableRounding::Nearest;
        segvartin::rgbx_to_sharp_yuv_with(&frame, &options, &self.source, stride, &mut self.y, &mut self.u, &mut self.v).unwrap();
    }

    /// Takes its source out of a larger frame.
    fn copy_out(&mut self, large: &Frame) {
        let (stride, before) = (self.stride(), LEFT * ORDERS[self.order].1);
        for (row, from) in self.source.chunks_mut(stride).zip(large.source.chunks(large.stride()).skip(TOP)) {
            row.copy_from_slice(&from[before..before + stride]);
        }
    }

    /// One call on the same pixels where they stand in the larger frame.
    fn window(&mut self, large: &Frame) {
        let (frame, stride) = (self.description(), large.stride() as u32);
        let mut options = FrameOptions::of(&frame);
        options.window = Window::new(LEFT as u32, TOP as u32, large.width as u32, large.height as u32);
        segvartin::rgbx_to_sharp_yuv_with(&frame, &options, &large.source, stride, &mut self.y, &mut self.u, &mut self.v).unwrap();
    }

    /// One call on the same pixels in rows that are further apart.
    fn padded(&mut self, source: &[u8]) {
        let (frame, stride) = (self.description(), (source.len() / self.height) as u32);
        segvartin::rgbx_to_sharp_yuv(&frame, source, stride, &mut self.y, &mut self.u, &mut self.v).unwrap();
    }

    /// The same frame in bands of so many rows.
    fn bands(&mut self, rows: usize) {
        let stride = self.stride();
        let mut state = FrameState { frame: self.description(), done: 0 };
        for band in self.source.chunks(rows * stride) {
            let rows = (band.len() / stride) as u32;
            let (y, u, v, carried) = (&mut self.y, &mut self.u, &mut self.v, &mut self.carried);
            let (after, answer) = state.band(rows, band, stride as u32, y, u, v, carried);
            answer.unwrap();
            state = after;
        }
        assert_eq!(state.done as usize, self.height);
    }

    fn rust(&mut self) {
        let call = match (self.order, self.sampling) {
            (0, 0) => rgb_to_sharp_yuv420,
            (1, 0) => rgba_to_sharp_yuv420,
            (2, 0) => bgra_to_sharp_yuv420,
            (3, 0) => bgr_to_sharp_yuv420,
            (0, _) => rgb_to_sharp_yuv422,
            (1, _) => rgba_to_sharp_yuv422,
            (2, _) => bgra_to_sharp_yuv422,
            (3, _) => bgr_to_sharp_yuv422,
            _ => unreachable!("there are four orders"),
        };
        let stride = self.stride() as u32;
        let chroma = self.width.div_ceil(2) as u32;
        let mut image = YuvPlanarImageMut {
            y_plane: BufferStoreMut::Borrowed(&mut self.y),
            y_stride: self.width as u32,
            u_plane: BufferStoreMut::Borrowed(&mut self.u),
            u_stride: chroma,
            v_plane: BufferStoreMut::Borrowed(&mut self.v),
            v_stride: chroma,
            width: self.width as u32,
            height: self.height as u32,
        };
        call(&mut image, &self.source, stride, YuvRange::Full, YuvStandardMatrix::Bt601, SharpYuvGammaTransfer::Srgb).unwrap();
    }
}

/// The least time of each form, in milliseconds: they take turns.
fn least<const N: usize>(frame: &mut Frame, turns: usize, forms: [&dyn Fn(&mut Frame); N]) -> [f64; N] {
    let mut least = [f64::MAX; N];
    for _ in 0..turns {
        for (form, time) in forms.iter().zip(&mut least) {
            let start = Instant::now();
            form(frame);
            *time = time.min(start.elapsed().as_secs_f64() * 1e3);
        }
    }
    least
}

/// Both converters on one frame: their times, and how many bytes of U and V differ. The unaltered Rust's curve tables differ from the exact ones
/// in a few entries (docs/DIFFERENCES.md), so a few chroma bytes may; luma goes through no table.
fn both(frame: &mut Frame, turns: usize) -> (f64, f64, usize) {
    frame.rust();
    let rust = frame.planes();
    frame.ours();
    let ours = frame.planes();
    assert!(rust[0] == ours[0], "the Y planes differ");
    let differ = (1..3).map(|p| rust[p].iter().zip(&ours[p]).filter(|(a, b)| a != b).count()).sum();
    let [rust, ours] = least(frame, turns, [&Frame::rust, &Frame::ours]);
    (rust, ours, differ)
}

/// The times of a call with truncated and with nearest tables. They leave the same luma; of noise, but in the smallest frames, other chroma.
fn roundings(frame: &mut Frame, turns: usize) -> [f64; 2] {
    frame.ours();
    let truncated = frame.planes();
    frame.nearest();
    let nearest = frame.planes();
    assert!(truncated[0] == nearest[0], "the Y planes differ");
    assert!(frame.width * frame.height < 1000 || truncated != nearest, "the roundings leave the same planes");
    least(frame, turns, [&Frame::ours, &Frame::nearest])
}

/// The times of a call on a rectangle copied out beforehand, of one on the same rectangle as a window, of one on it in rows as far apart as the
/// window's, without a window, and of the copying.
fn windows(sampling: usize) -> [f64; 4] {
    let large = Frame::new(Content::Noise, 3840, 2160, 0, sampling);
    let mut frame = Frame::new(Content::Noise, 1920, 1080, 0, sampling);
    frame.window(&large);
    let window = frame.planes();
    frame.copy_out(&large);
    let mut padded = vec![0; large.stride() * frame.height];
    for (row, from) in padded.chunks_mut(large.stride()).zip(frame.source.chunks(frame.stride())) {
        row[..from.len()].copy_from_slice(from);
    }
    for form in [&Frame::ours as &dyn Fn(&mut Frame), &|f| f.padded(&padded)] {
        form(&mut frame);
        assert!(frame.planes() == window, "a window leaves other planes than its rectangle copied out");
    }
    // the others in turns of their own: the copying just before a call would leave the rectangle in the cache for it
    let [copied, window] = least(&mut frame, TURNS, [&Frame::ours, &|f| f.window(&large)]);
    let [_, padded] = least(&mut frame, TURNS, [&Frame::ours, &|f| f.padded(&padded)]);
    let [copying] = least(&mut frame, TURNS, [&|f: &mut Frame| f.copy_out(&large)]);
    [copied, window, padded, copying]
}

unsafe extern "C" {
    /// luma_counts.c: of these weights and this bias.
    fn triple_loop(yr: u32, yg: u32, yb: u32, bias_y: u32, counts: &mut [u32; 256]);
}

/// The times of a count of colours, Bt601 Full, and of the loop in C, whose counts are the same.
fn counts() -> [f64; 2] {
    let ours = || segvartin::luma_counts(segvartin::YuvRange::Full, segvartin::YuvStandardMatrix::Bt601).unwrap();
    let by_loop = || {
        let mut counts = [0; 256];
        // SAFETY: it writes the 256 numbers, and of Bt601 Full no luma is above 255.
        unsafe { triple_loop(2449, 4809, 934, 0, &mut counts) };
        counts
    };
    assert!(ours() == by_loop(), "the loop in C counts otherwise");
    let mut least = [f64::MAX; 2];
    for _ in 0..TURNS_OF_COUNTS {
        for (form, time) in [&ours as &dyn Fn() -> [u32; 256], &by_loop].iter().zip(&mut least) {
            let start = Instant::now();
            std::hint::black_box(form());
            *time = time.min(start.elapsed().as_secs_f64() * 1e3);
        }
    }
    least
}

/// Whether every figure is within its bar.
struct Bars(bool);

impl Bars {
    fn hold(&mut self, holds: bool) -> &'static str {
        self.0 &= holds;
        if holds { "" } else { "  out of its bar" }
    }
}

fn main() {
    let mut bars = Bars(true);
    let processor = std::fs::read_to_string("/proc/cpuinfo").unwrap_or_default();
    let processor = processor.lines().find_map(|l| l.strip_prefix("model name")).map_or("unknown", |l| l.trim_start_matches(['\t', ':', ' ']));
    println!("{}; {processor}; one thread; Full, Bt601, sRGB; least of {TURNS} turns", env!("BENCH_RUSTC"));
    let only = std::env::args().nth(1);
    let asked = |name: &str| only.as_deref().is_none_or(|only| only == name);
    if asked("frames") {
        frames(&mut bars);
    }
    if asked("convoy") {
        convoy::report(&mut bars);
    }
    if asked("desk") {
        desk::report(&mut bars);
    }
    if asked("shift") {
        shift::report(&mut bars);
    }
    if asked("summary") {
        summary::report(&mut bars);
    }
    if asked("pairs") {
        pairs::report(&mut bars);
    }
    if asked("y4m") {
        y4m::report(&mut bars);
    }
    if !bars.0 {
        std::process::exit(1);
    }
}

/// All but convoys, desks, shift files, summaries, pairs and Y4M files.
fn frames(bars: &mut Bars) {
    println!("\n1,920 x 1,080, ms; bar: {LEAST_RATIO} times the Rust");
    println!("{:<8}{:<6}{:<7}{:>8}{:>8}{:>8}{:>24}", "content", "order", "chroma", "Rust", "ours", "times", "U, V bytes that differ");
    for (name, content, orders) in [("noise", Content::Noise, 4), ("smooth", Content::Smooth, 1)] {
        for sampling in 0..2 {
            for order in 0..orders {
                let (rust, ours, differ) = both(&mut Frame::new(content, 1920, 1080, order, sampling), TURNS);
                let said = bars.hold(rust >= LEAST_RATIO * ours);
                println!("{name:<8}{:<6}{:<7}{rust:>8.2}{ours:>8.2}{:>8.2}{differ:>24}{said}", ORDERS[order].0, SAMPLINGS[sampling], rust / ours);
            }
        }
    }

    println!("\n1,920 x 1,080 in bands, Rgb, noise, ms, and over one call; bars: {MOST_OVER_16} % for 16 rows, {MOST_OVER_120} % for 120");
    println!("{:<13}{:>8}{:>9}{:>8}{:>9}", "rows a band", "4:2:0", "over", "4:2:2", "over");
    let figures = [0, 1].map(|sampling| {
        let mut frame = Frame::new(Content::Noise, 1920, 1080, 0, sampling);
        frame.ours();
        let one = frame.planes();
        for rows in [1, 16, 120] {
            frame.bands(rows);
            assert!(frame.planes() == one, "bands of {rows} rows leave other planes than one call");
        }
        least(&mut frame, TURNS, [&Frame::ours, &|f| f.bands(1), &|f| f.bands(16), &|f| f.bands(120)])
    });
    for (i, (name, bar)) in [("all", None), ("1", None), ("16", Some(MOST_OVER_16)), ("120", Some(MOST_OVER_120))].into_iter().enumerate() {
        let over = [0, 1].map(|s| (figures[s][i] / figures[s][0] - 1.) * 100.);
        let said = bars.hold(bar.is_none_or(|bar| over.iter().all(|o| *o <= bar)));
        println!("{name:<13}{:>8.2}{:>7.1} %{:>8.2}{:>7.1} %{said}", figures[0][i], over[0], figures[1][i], over[1]);
    }

    println!("\n1,920 x 1,080 by the rounding of the tables, Rgb, noise, ms; bar: {MOST_APART} % apart");
    println!("{:<8}{:>11}{:>9}{:>8}", "chroma", "truncated", "nearest", "times");
    for sampling in 0..2 {
        let [truncated, nearest] = roundings(&mut Frame::new(Content::Noise, 1920, 1080, 0, sampling), TURNS);
        let said = bars.hold(truncated.max(nearest) <= truncated.min(nearest) * (1. + MOST_APART / 100.));
        println!("{:<8}{truncated:>11.2}{nearest:>9.2}{:>8.3}{said}", SAMPLINGS[sampling], nearest / truncated);
    }

    // The call has nowhere to copy to: no heap, and a stack below 96 KiB (tests/c/stack.c). Had it copied, it would be over by the last column.
    println!("\na window of 1,920 x 1,080 in 3,840 x 2,160, Rgb, noise, ms, and over its rectangle copied out beforehand; bar: {MOST_OVER_COPIED} %");
    println!("{:<8}{:>11}{:>9}{:>9}{:>25}{:>13}", "chroma", "copied out", "window", "over", "as far apart, no window", "the copying");
    for sampling in 0..2 {
        let [copied, window, padded, copying] = windows(sampling);
        let said = bars.hold(window <= copied * (1. + MOST_OVER_COPIED / 100.));
        println!("{:<8}{copied:>11.2}{window:>9.2}{:>7.1} %{padded:>25.2}{copying:>13.2}{said}", SAMPLINGS[sampling], (window / copied - 1.) * 100.);
    }

    println!("\nother sizes, Rgb, noise, ns a pixel; least of so many turns");
    println!("{:<14}{:>7}{:>16}{:>8}{:>16}{:>8}", "size", "turns", "4:2:0: Rust", "ours", "4:2:2: Rust", "ours");
    for (width, height, turns) in [(480, 270, 200), (960, 540, 100), (1920, 1080, 50), (3840, 2160, 25), (7680, 4320, 25)] {
        let [(rust0, ours0), (rust1, ours1)] = [0, 1].map(|sampling| {
            let (rust, ours, _) = both(&mut Frame::new(Content::Noise, width, height, 0, sampling), turns);
            (rust * 1e6 / (width * height) as f64, ours * 1e6 / (width * height) as f64)
        });
        println!("{:<14}{turns:>7}{rust0:>16.2}{ours0:>8.2}{rust1:>16.2}{ours1:>8.2}", format!("{width} x {height}"));
    }

    let (rust, ours, _) = both(&mut Frame::new(Content::Noise, 2, 2, 0, 0), 1000);
    println!("\na call on 2 x 2 pixels, which is the making of the tables: Rust {:.1} us, ours {:.1} us", rust * 1e3, ours * 1e3);
    let [truncated, nearest] = roundings(&mut Frame::new(Content::Noise, 2, 2, 0, 0), 1000);
    println!("by rounding: truncated {:.1} us, nearest {:.1} us, {:.3} times", truncated * 1e3, nearest * 1e3, nearest / truncated);

    println!("\nhow many colours have each luma, ms, beside three loops in C ({} -O3); least of {TURNS_OF_COUNTS} turns; bar: {MOST_OF_COUNTS} ms", env!("BENCH_GCC"));
    println!("{:<12}{:>8}{:>8}{:>8}", "", "loops", "ours", "over");
    let [ours, loops] = counts();
    let said = bars.hold(ours < MOST_OF_COUNTS);
    println!("{:<12}{loops:>8.1}{ours:>8.1}{:>8.2}{said}", "Bt601 Full", ours / loops);
}
