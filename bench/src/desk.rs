//! A desk: a step on a band of 120 rows of 1,920 x 1,080 beside the band call itself on the same band, with one frame open and with 31, both by the
//! linked calls and both made from Rattle; and what the desk's calls cost beside the band on frames of a few pixels.
use crate::Bars;
use crate::convoy::{SAMPLINGS, cut, processor_time};
use segvartin::*;
use std::hint::black_box;
use std::io::Write;
use std::process::{Command, Stdio};

const WIDTH: usize = 1920;
const HEIGHT: usize = 1080;
const ROWS: usize = 120;
const BANDS: usize = HEIGHT / ROWS;

const TURNS: usize = 100;

/// How often these are gone through, by the linked calls and from Rattle in turn.
const RUNS: usize = 3;
const TURNS_OF_SMALL: usize = 2000;

// Per cent of a step over the band call.
const MOST_OVER_BAND: f64 = 1.;

/// The camera that is measured, in the middle of those with a frame.
const CAMERA: u32 = 15;

/// Frames of one size for some cameras, all of noise, and the buffers that they share: source, Y, U, V, carried rows. Every camera has its bands from
/// the same source.
struct Shared {
    desk: Desk,
    frame: FrameDescription,
    parts: Vec<DeskParts>,
    buffers: [Vec<u8>; 5],
    rows: usize,
}

impl Shared {
    /// For cameras 0 to `cameras` - 1, or for the one that is measured alone.
    fn new(cameras: usize, width: usize, height: usize, rows: usize, sampling: YuvChromaSubsampling) -> Shared {
        let chroma_width = width.div_ceil(2);
        let chroma_rows = if sampling == YuvChromaSubsampling::Yuv420 { height.div_ceil(2) } else { height };
        let frame = FrameDescription {
            width: width as u32,
            height: height as u32,
            channels: YuvSourceChannels::Rgb,
            sampling,
            range: YuvRange::Full,
            matrix: YuvStandardMatrix::Bt601,
            transfer: SharpYuvGammaTransfer::Srgb,
            y_stride: width as u32,
            u_stride: chroma_width as u32,
            v_stride: chroma_width as u32,
        };
        let sizes = [width * height, chroma_width * chroma_rows, chroma_width * chroma_rows, 3 * width];
        let parts = (0..cameras)
            .map(|k| {
                let [y, u, v, carried] = sizes.map(|size| BufferPart::new(k * size, size));
                DeskParts { y, u, v, carried }
            })
            .collect();
        let [y, u, v, carried] = sizes.map(|size| vec![0; cameras * size]);
        let mut state = 12345u32;
        let source = (0..3 * width * height)
            .map(|_| {
                state = state.wrapping_mul(1664525).wrapping_add(1013904223);
                (state >> 24) as u8
            })
            .collect();
        let mut shared = Shared { desk: Desk::default(), frame, parts, buffers: [source, y, u, v, carried], rows };
        for k in 0..cameras {
            shared.open(if cameras == 1 { CAMERA } else { k as u32 });
        }
        shared
    }

    fn parts_of(&self, camera: u32) -> DeskParts {
        self.parts[if self.parts.len() == 1 { 0 } else { camera as usize }]
    }

    fn open(&mut self, camera: u32) {
        let [_, y, u, v, carried] = self.buffers.each_ref().map(Vec::len);
        let lengths = DeskLengths { y, u, v, carried };
        let options = FrameOptions::of(&self.frame);
        self.desk.open(camera, &self.frame, &options, &self.parts_of(camera), &lengths).unwrap();
    }

    fn stride(&self) -> u32 {
        3 * self.frame.width
    }

    /// Where a band stands in the source.
    fn band(&self, band: usize) -> BufferPart {
        let length = self.rows * self.stride() as usize;
        BufferPart::new(band * length, length)
    }

    fn offer(&mut self, band: usize) {
        let (part, source_len) = (self.band(band), self.buffers[0].len());
        self.desk.offer(CAMERA, self.rows as u32, self.stride(), part, source_len).unwrap();
    }

    fn step(&mut self) {
        let [source, y, u, v, carried] = &mut self.buffers;
        let served = black_box(&mut self.desk).step(source, y, u, v, carried);
        assert_eq!(served, Ok(Some(CAMERA)));
    }

    /// The band call on the same parts.
    fn call(&mut self, state: FrameStateWith, band: usize) -> FrameStateWith {
        let (stride, from, parts) = (self.stride(), self.band(band), self.parts_of(CAMERA));
        let [source, y, u, v, carried] = &mut self.buffers;
        let (y, u, v, carried) = (cut(y, parts.y), cut(u, parts.u), cut(v, parts.v), cut(carried, parts.carried));
        let (after, answer) = black_box(state).band(self.rows as u32, cut(source, from), stride, y, u, v, carried);
        answer.unwrap();
        after
    }

    fn bands(&self) -> usize {
        self.frame.height as usize / self.rows
    }

    /// A frame by steps is the frame by band calls.
    fn check(&mut self) {
        let mut state = FrameStateWith::open(self.frame, FrameOptions::of(&self.frame)).unwrap();
        for band in 0..self.bands() {
            state = self.call(state, band);
        }
        let expected = self.buffers.clone();
        self.buffers[1..].iter_mut().for_each(|buffer| buffer.fill(0));
        for band in 0..self.bands() {
            self.offer(band);
            self.step();
        }
        assert!(self.buffers == expected, "steps leave other planes than band calls");
        self.open(CAMERA); // its last row is done, so its number is free
    }

    /// The times of each band of a frame by the band call, by its step, and of its offer, in milliseconds of the processor, once a turn. Which of
    /// the two is first changes from turn to turn: the later one finds the band in the cache.
    fn times(&mut self, turns: usize) -> Vec<Times> {
        let mut all = vec![Vec::new(); self.bands()];
        for turn in 0..turns {
            let mut state = FrameStateWith::open(self.frame, FrameOptions::of(&self.frame)).unwrap();
            for (band, times) in all.iter_mut().enumerate() {
                let mut took = [0.; 3];
                for form in [turn % 2, 1 - turn % 2] {
                    if form == 0 {
                        let start = processor_time();
                        state = self.call(state, band);
                        took[0] = processor_time() - start;
                    } else {
                        let start = processor_time();
                        self.offer(band);
                        took[2] = processor_time() - start;
                        let start = processor_time();
                        self.step();
                        took[1] = processor_time() - start;
                    }
                }
                times.push(took);
            }
            self.open(CAMERA);
        }
        all
    }
}

/// Of one band, one for each turn.
type Times = Vec<[f64; 3]>;

/// The middle one.
fn middle(mut numbers: Vec<f64>) -> f64 {
    numbers.sort_by(f64::total_cmp);
    numbers[numbers.len() / 2]
}

/// The least times of each form, added up over the bands.
fn least(all: &[Times]) -> [f64; 3] {
    [0, 1, 2].map(|form| all.iter().map(|times| times.iter().map(|took| took[form]).fold(f64::MAX, f64::min)).sum())
}

/// How many times as long a step takes as the band call: the middle of all pairs in which the call was first, and of those in which the step was. A
/// pair is made within a millisecond, so that a slow or a fast moment of the machine falls on both; on a busy one that cannot be said of the least
/// of each.
fn over(all: &[Times]) -> f64 {
    let [call_first, step_first] = [0, 1].map(|first| {
        let pairs = all.iter().flat_map(|times| times.iter().skip(first).step_by(2));
        middle(pairs.map(|took| took[1] / took[0]).collect())
    });
    (call_first * step_first).sqrt()
}

/// The same of the band call and the step, by the program in Rattle (desk.rattle).
fn in_rattle(cameras: usize, sampling: usize) -> Vec<Times> {
    let program = std::env::current_exe().unwrap().with_file_name("desk_rattle");
    let mut running = Command::new(program).stdin(Stdio::piped()).stdout(Stdio::piped()).spawn().expect("bench/build makes desk_rattle");
    running.stdin.take().unwrap().write_all(&[sampling as u8, cameras as u8, TURNS as u8]).unwrap();
    let written = running.wait_with_output().unwrap().stdout;
    let mut numbers: Vec<f64> = String::from_utf8(written).unwrap().lines().map(|line| line.parse().unwrap()).collect();
    assert!(numbers.pop().unwrap() > 0., "steps leave other planes than band calls");
    assert_eq!(numbers.len(), 2 * BANDS * TURNS);
    let of_band = |band| numbers.chunks(2).skip(band).step_by(BANDS).map(|took| [took[0] / 1e6, took[1] / 1e6, 0.]).collect();
    (0..BANDS).map(of_band).collect()
}

pub fn report(bars: &mut Bars) {
    println!(
        "\na step on bands of {ROWS} rows of {WIDTH} x {HEIGHT} beside the band call on them, Rgb, noise, processor ms a frame of {BANDS} bands; \
         least of {RUNS} x {TURNS} turns, and the middle of as many pairs; bar: {MOST_OVER_BAND} %"
    );
    println!("{:<8}{:<8}{:>13}{:>13}{:>9}{:>16}{:>12}", "calls", "chroma", "frames open", "band calls", "steps", "over, in pairs", "us a band");
    for (code, (chroma, sampling)) in SAMPLINGS.into_iter().enumerate() {
        for cameras in [1, 31] {
            let mut shared = Shared::new(cameras, WIDTH, HEIGHT, ROWS, sampling);
            shared.check();
            let mut all = [vec![Vec::new(); BANDS], vec![Vec::new(); BANDS]];
            for _ in 0..RUNS {
                for (all, times) in all.iter_mut().zip([shared.times(TURNS), in_rattle(cameras, code)]) {
                    all.iter_mut().zip(times).for_each(|(all, times)| all.extend(times));
                }
            }
            for (calls, all) in ["linked", "Rattle"].into_iter().zip(all) {
                let ([call, step, _], over) = (least(&all), (over(&all) - 1.) * 100.);
                let said = bars.hold(over <= MOST_OVER_BAND);
                let more = over / 100. * call * 1e3 / BANDS as f64;
                println!("{calls:<8}{chroma:<8}{cameras:>13}{call:>13.3}{step:>9.3}{over:>14.2} %{more:>12.2}{said}");
            }
        }
    }

    println!("\nthe same on bands of one row of 16 x 8, linked, us a band; least of {TURNS_OF_SMALL} turns; the clock takes its part of each");
    println!("{:<8}{:>13}{:>13}{:>9}{:>9}{:>9}", "chroma", "frames open", "band call", "step", "more", "offer");
    for (name, sampling) in SAMPLINGS {
        for cameras in [1, 31] {
            let mut small = Shared::new(cameras, 16, 8, 1, sampling);
            let each = small.bands() as f64;
            let [call, step, offer] = least(&small.times(TURNS_OF_SMALL)).map(|time| time * 1e3 / each);
            println!("{name:<8}{cameras:>13}{call:>13.2}{step:>9.2}{:>9.2}{offer:>9.2}", step - call);
        }
    }
}
