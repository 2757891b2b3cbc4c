//! Several frames in one call: six of 1,920 x 1,080 beside six calls, and 64 small ones by what each frame more costs before the first is begun.
use crate::Bars;
use crate::shift::least;
use segvartin::*;
use std::hint::black_box;

const TURNS: usize = 60;
const TURNS_OF_SMALL: usize = 2000;

// Per cent of one call over six.
const MOST_OVER_CALLS: f64 = 2.;

/// Frames of one size, all of noise, and the buffers that their parts are of: source, Y, U, V.
struct Several {
    frames: Vec<ConvoyFrame>,
    buffers: [Vec<u8>; 4],
}

pub fn cut(buffer: &mut [u8], part: BufferPart) -> &mut [u8] {
    &mut buffer[part.offset..part.offset + part.length]
}

impl Several {
    fn new(count: usize, width: usize, height: usize, sampling: YuvChromaSubsampling) -> Several {
        let chroma_width = width.div_ceil(2);
        let rows = if sampling == YuvChromaSubsampling::Yuv420 { height.div_ceil(2) } else { height };
        let description = FrameDescription {
            width: width as u32,
            height: height as u32,
            channels: YuvSourceChannels::Rgb,
            sampling,
            range: YuvRange::Full,
            matrix: YuvStandardMatrix::Bt601,
            transfer: SharpYuvGammaTransfer::Srgb,
            y_stride: width as u32,
            u_stride: chroma_width as u32,
            v_stride: chroma_width as u32,
        };
        let sizes = [3 * width * height, width * height, chroma_width * rows, chroma_width * rows];
        let frames = (0..count)
            .map(|k| {
                let [source, y, u, v] = sizes.map(|size| BufferPart::new(k * size, size));
                let mut frame = ConvoyFrame::of(&description);
                (frame.stride, frame.source) = (3 * width as u32, source);
                (frame.y, frame.u, frame.v) = (y, u, v);
                frame
            })
            .collect();
        let mut buffers = sizes.map(|size| vec![0; count * size]);
        let mut state = 12345u32;
        for byte in &mut buffers[0] {
            state = state.wrapping_mul(1664525).wrapping_add(1013904223);
            *byte = (state >> 24) as u8;
        }
        Several { frames, buffers }
    }

    fn one_call(&mut self) {
        let [source, y, u, v] = &mut self.buffers;
        convert_convoy(black_box(&self.frames), source, y, u, v).unwrap();
    }

    /// The same frames, each by its own call.
    fn calls(&mut self) {
        let [source, y, u, v] = &mut self.buffers;
        for frame in black_box(&self.frames) {
            let (y, u, v) = (cut(y, frame.y), cut(u, frame.u), cut(v, frame.v));
            rgbx_to_sharp_yuv_with(&frame.frame, &frame.options, cut(source, frame.source), frame.stride, y, u, v).unwrap();
        }
    }

    /// Its first frame is refused (2): all parts are held to their buffers and to each other, and nothing else is done.
    fn refused(&mut self) {
        let [source, y, u, v] = &mut self.buffers;
        let refused = convert_convoy(black_box(&self.frames), source, y, u, v).unwrap_err();
        assert_eq!((refused.place(), refused.error), (Some(0), YuvError::ZeroBaseSize));
    }
}

/// As libc has them.
#[repr(C)]
struct Timespec {
    seconds: i64,
    nanoseconds: i64,
}

unsafe extern "C" {
    /// libc
    fn clock_gettime(clock: i32, at: *mut Timespec) -> i32;
}

/// CLOCK_THREAD_CPUTIME_ID
const THREAD_TIME: i32 = 3;

/// Milliseconds that this thread has had a processor. A call on six frames takes longer than a busy machine lets a thread run at once, so that the
/// least time on the wall has other programs in it.
pub fn processor_time() -> f64 {
    let mut at = Timespec { seconds: 0, nanoseconds: 0 };
    // SAFETY: it writes the struct, which has its layout.
    assert_eq!(unsafe { clock_gettime(THREAD_TIME, &mut at) }, 0);
    at.seconds as f64 * 1e3 + at.nanoseconds as f64 / 1e6
}

/// The least processor time of each form, in milliseconds: they take turns.
fn least_processor_time<const N: usize>(on: &mut Several, turns: usize, forms: [fn(&mut Several); N]) -> [f64; N] {
    let mut least = [f64::MAX; N];
    for _ in 0..turns {
        for (form, time) in forms.iter().zip(&mut least) {
            let start = processor_time();
            form(on);
            *time = time.min(processor_time() - start);
        }
    }
    least
}

pub const SAMPLINGS: [(&str, YuvChromaSubsampling); 2] = [("4:2:0", YuvChromaSubsampling::Yuv420), ("4:2:2", YuvChromaSubsampling::Yuv422)];

pub fn report(bars: &mut Bars) {
    println!("\nsix frames of 1,920 x 1,080 in one call beside six, Rgb, noise, processor ms; least of {TURNS} turns; bar: {MOST_OVER_CALLS} %");
    println!("{:<8}{:>11}{:>10}{:>9}", "chroma", "six calls", "one call", "over");
    for (name, sampling) in SAMPLINGS {
        let mut six = Several::new(6, 1920, 1080, sampling);
        six.calls();
        let expected = six.buffers.clone();
        six.buffers[1..].iter_mut().for_each(|plane| plane.fill(0));
        six.one_call();
        assert!(six.buffers == expected, "one call leaves other planes than six");
        let [calls, one] = least_processor_time(&mut six, TURNS, [Several::calls, Several::one_call]);
        let said = bars.hold(one <= calls * (1. + MOST_OVER_CALLS / 100.));
        println!("{name:<8}{calls:>11.2}{one:>10.2}{:>7.1} %{said}", (one / calls - 1.) * 100.);
    }

    println!("\nsmall frames in one call, us; least of {TURNS_OF_SMALL} turns; the parts: the first is refused, so that only parts are tested");
    println!("{:<8}{:>12}{:>14}{:>10}{:>16}", "frames", "of", "calls", "one call", "the parts");
    for count in [1, 6, 16, 64] {
        let mut small = Several::new(count, 16, 8, YuvChromaSubsampling::Yuv420);
        let [calls, one] = least(&mut small, TURNS_OF_SMALL / count, [&Several::calls, &Several::one_call]).map(|time| time * 1e3);
        small.frames[0].frame.height = 0;
        let [parts] = least(&mut small, TURNS_OF_SMALL, [&Several::refused]).map(|time| time * 1e3);
        println!("{count:<8}{:>12}{calls:>14.1}{one:>10.1}{parts:>16.2}", "16 x 8");
    }
}
