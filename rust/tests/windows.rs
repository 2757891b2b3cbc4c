//! A frame that is a rectangle inside a larger source leaves what the rectangle copied out leaves, in frame calls and in every cut into bands, whatever
//! stands around it; refusal 14, and those that take the large size.

use segvartin::*;

/// The large source.
const SOURCE_WIDTH: usize = 5;
const SOURCE_HEIGHT: usize = 4;

const ORDERS: [(YuvSourceChannels, usize); 4] = [
    (YuvSourceChannels::Rgb, 3),
    (YuvSourceChannels::Rgba, 4),
    (YuvSourceChannels::Bgra, 4),
    (YuvSourceChannels::Bgr, 3),
];
const SAMPLINGS: [YuvChromaSubsampling; 2] =
    [YuvChromaSubsampling::Yuv420, YuvChromaSubsampling::Yuv422];
const ROUNDINGS: [TableRounding; 2] = [TableRounding::Truncated, TableRounding::Nearest];

type Planes = [Vec<u8>; 3];

fn description(
    width: usize,
    height: usize,
    channels: YuvSourceChannels,
    sampling: YuvChromaSubsampling,
) -> FrameDescription {
    let chroma = width.div_ceil(2) as u32;
    FrameDescription {
        width: width as u32,
        height: height as u32,
        channels,
        sampling,
        range: YuvRange::Full,
        matrix: YuvStandardMatrix::Custom(0.25, 0.0625),
        transfer: SharpYuvGammaTransfer::Srgb,
        y_stride: width as u32,
        u_stride: chroma,
        v_stride: chroma + 1,
    }
}

fn planes(frame: &FrameDescription) -> Planes {
    let rows = match frame.sampling {
        YuvChromaSubsampling::Yuv420 => frame.height.div_ceil(2),
        YuvChromaSubsampling::Yuv422 => frame.height,
    };
    [
        vec![0xee; (frame.y_stride * frame.height) as usize],
        vec![0xee; (frame.u_stride * rows) as usize],
        vec![0xee; (frame.v_stride * rows) as usize],
    ]
}

struct Noise(u32);

impl Noise {
    fn byte(&mut self) -> u8 {
        self.0 = self.0.wrapping_mul(1_664_525).wrapping_add(1_013_904_223);
        (self.0 >> 24) as u8
    }

    fn bytes(&mut self, len: usize) -> Vec<u8> {
        (0..len).map(|_| self.byte()).collect()
    }

    /// Rows of the large width with these rows in them from `left` on, and noise around.
    fn around(&mut self, rows: &[&[u8]], left: usize, stride: usize) -> Vec<u8> {
        let mut source = self.bytes(rows.len() * stride);
        for (large, row) in source.chunks_mut(stride).zip(rows) {
            large[left..left + row.len()].copy_from_slice(row);
        }
        source
    }
}

fn by_frame(
    frame: &FrameDescription,
    options: &FrameOptions,
    source: &[u8],
    stride: usize,
) -> Planes {
    let mut left = planes(frame);
    let [y, u, v] = &mut left;
    rgbx_to_sharp_yuv_with(frame, options, source, stride as u32, y, u, v).unwrap();
    left
}

/// One window: `rectangle` is what it shows.
fn one_window(
    frame: FrameDescription,
    options: FrameOptions,
    c: usize,
    rectangle: &[u8],
    noise: &mut Noise,
) {
    let window = options.window;
    let size = frame.width as usize * c;
    let stride =
        window.source_width as usize * c + (window.left as usize + window.top as usize) % 3;
    let left = window.left as usize * c;
    let rows: Vec<&[u8]> = rectangle.chunks(size).collect();
    let mut whole = FrameOptions::of(&frame);
    assert_eq!(whole.window, Window::new(0, 0, frame.width, frame.height));
    whole.rounding = options.rounding;
    let expected = by_frame(&frame, &whole, rectangle, size);
    if options.rounding == TableRounding::Truncated {
        let mut old = planes(&frame);
        let [y, u, v] = &mut old;
        rgbx_to_sharp_yuv(&frame, rectangle, size as u32, y, u, v).unwrap();
        assert_eq!(old, expected);
    }

    let above = window.top as usize * stride;
    let below = window.source_height as usize * stride - above - rows.len() * stride;
    for _ in 0..2 {
        let mut source = noise.bytes(above);
        source.extend(noise.around(&rows, left, stride));
        source.extend(noise.bytes(below));
        assert_eq!(by_frame(&frame, &options, &source, stride), expected);
    }

    // bit i set: a band ends after row i
    for cuts in 0u32..1 << (frame.height - 1) {
        let mut left_by_bands = planes(&frame);
        let [y, u, v] = &mut left_by_bands;
        let mut carried = vec![0; 3 * frame.width as usize];
        let mut state = FrameStateWith::open(frame, options).unwrap();
        for end in 1..=frame.height {
            if end < frame.height && cuts >> (end - 1) & 1 == 0 {
                continue;
            }
            let band = noise.around(&rows[state.done as usize..end as usize], left, stride);
            let (after, answer) = state.band(
                end - state.done,
                &band,
                stride as u32,
                y,
                u,
                v,
                &mut carried,
            );
            assert_eq!(answer, Ok(()));
            assert_eq!(
                (after.frame, after.options, after.done),
                (frame, options, end)
            );
            state = after;
        }
        assert_eq!(left_by_bands, expected);
    }
}

#[test]
fn every_window_is_the_rectangle_copied_out() {
    let mut noise = Noise(12345);
    for (left, top) in (0..SOURCE_WIDTH).flat_map(|l| (0..SOURCE_HEIGHT).map(move |t| (l, t))) {
        for (width, height) in
            (1..=SOURCE_WIDTH - left).flat_map(|w| (1..=SOURCE_HEIGHT - top).map(move |h| (w, h)))
        {
            for ((channels, c), sampling) in
                ORDERS.into_iter().flat_map(|o| SAMPLINGS.map(|s| (o, s)))
            {
                let frame = description(width, height, channels, sampling);
                let rectangle = noise.bytes(width * height * c);
                for rounding in ROUNDINGS {
                    let mut options = FrameOptions::of(&frame);
                    options.rounding = rounding;
                    options.window = Window::new(
                        left as u32,
                        top as u32,
                        SOURCE_WIDTH as u32,
                        SOURCE_HEIGHT as u32,
                    );
                    one_window(frame, options, c, &rectangle, &mut noise);
                }
            }
        }
    }
}

/// 3 × 2 pixels of 3 bytes at the far corner of a source of 5 × 4, stride 16; its fields may be spoilt before the calls.
struct Request {
    frame: FrameDescription,
    options: FrameOptions,
    stride: u32,
    source: Vec<u8>,
    /// Of a band: rows done, rows, source, length of the carried row.
    done: u32,
    rows: u32,
    band: Vec<u8>,
    carried: usize,
}

impl Request {
    fn new() -> Request {
        let frame = description(3, 2, YuvSourceChannels::Bgr, YuvChromaSubsampling::Yuv420);
        let mut options = FrameOptions::of(&frame);
        options.window = Window::new(2, 2, 5, 4);
        Request {
            frame,
            options,
            stride: 16,
            source: vec![9; 64],
            done: 1,
            rows: 1,
            band: vec![9; 16],
            carried: 9,
        }
    }

    fn spoilt(spoil: impl Fn(&mut Request)) -> Request {
        let mut request = Request::new();
        spoil(&mut request);
        request
    }

    /// A refusal writes no byte.
    fn frame(&self) -> Result<(), YuvError> {
        let before = planes(&Request::new().frame);
        let mut after = before.clone();
        let [y, u, v] = &mut after;
        let (frame, options) = (&self.frame, &self.options);
        let answer = rgbx_to_sharp_yuv_with(frame, options, &self.source, self.stride, y, u, v);
        assert_eq!(after == before, answer.is_err());
        answer
    }

    fn opening(&self) -> Result<(), YuvError> {
        FrameStateWith::open(self.frame, self.options).map(|state| {
            assert_eq!(
                (state.frame, state.options, state.done),
                (self.frame, self.options, 0)
            );
        })
    }

    /// A refusal writes no byte and hands back the state that it got.
    fn band(&self) -> Result<(), YuvError> {
        let accepted = Request::new();
        let mut state = FrameStateWith::open(accepted.frame, accepted.options).unwrap();
        (state.frame, state.options, state.done) = (self.frame, self.options, self.done);
        let before = (planes(&accepted.frame), vec![7; self.carried]);
        let mut after = before.clone();
        let ([y, u, v], carried) = (&mut after.0, &mut after.1);
        let (band, answer) = state.band(self.rows, &self.band, self.stride, y, u, v, carried);
        assert_eq!(after == before && band == state, answer.is_err());
        answer
    }
}

/// What all three calls answer.
#[track_caller]
fn all(spoil: impl Fn(&mut Request), answer: Result<(), YuvError>) {
    let request = Request::spoilt(spoil);
    assert_eq!(request.frame(), answer);
    assert_eq!(request.opening(), answer);
    assert_eq!(request.band(), answer);
}

#[test]
fn windows_outside_the_source() {
    let outside = Err(YuvError::WindowOutsideSource);
    all(|_| (), Ok(()));
    for (left, top) in [
        (3, 2),
        (2, 3),
        (u32::MAX, 2),
        (2, u32::MAX),
        (u32::MAX - 2, 2), // left + width wraps to 0 in 32 bits
        (2, u32::MAX - 1),
    ] {
        all(|r| r.options.window = Window::new(left, top, 5, 4), outside);
    }
    for (width, height) in [(4, 4), (5, 3), (0, 4), (5, 0), (0, 0)] {
        let window = Window::new(2, 2, width, height);
        all(|r| r.options.window = window, outside);
    }
    all(|r| r.options.window = Window::new(0, 0, 2, 2), outside);
    assert_eq!(YuvError::WindowOutsideSource.number(), 14);
    assert_eq!(YuvError::WindowOutsideSource.size(), None);
    assert_eq!(
        YuvError::WindowOutsideSource.to_string(),
        "refused 14: the window ends outside the large source"
    );
}

#[test]
fn order_of_refusals() {
    use YuvError::*;
    let far = Window::new(u32::MAX, 0, 5, 4);
    let large = Window::new(u32::MAX, 0, 5, 16_385);
    let wide = Window::new(0, 0, 16_385, 4);
    let matrix = YuvStandardMatrix::Custom(0.75, 0.0);
    let zero = |r: &mut Request, window| (r.frame.height, r.options.window) = (0, window);
    all(|r| zero(r, far), Err(ZeroBaseSize));
    all(|r| zero(r, large), Err(ZeroBaseSize));
    all(|r| r.options.window = large, Err(SizeTooLarge));
    all(|r| r.options.window = wide, Err(SizeTooLarge));
    let not_accepted =
        |r: &mut Request, window| (r.frame.matrix, r.options.window) = (matrix, window);
    all(|r| not_accepted(r, wide), Err(SizeTooLarge));
    all(|r| not_accepted(r, far), Err(MatrixNotAccepted));
    let none = |r: &mut Request, window| (r.rows, r.options.window) = (0, window);
    let band = |spoil: &dyn Fn(&mut Request)| Request::spoilt(spoil).band();
    assert_eq!(band(&|r| none(r, far)), Err(WindowOutsideSource));
    let window = Request::new().options.window;
    assert_eq!(band(&|r| none(r, window)), Err(BandRowsMismatch));
}

#[test]
fn refusals_by_the_large_size() {
    use YuvError::*;
    let size = |expected, received| MismatchedSize { expected, received };
    let frame = |spoil: &dyn Fn(&mut Request)| Request::spoilt(spoil).frame().unwrap_err();
    let band = |spoil: &dyn Fn(&mut Request)| Request::spoilt(spoil).band().unwrap_err();
    // rows of 15 bytes: 4 of them, or the band's one
    let short = frame(&|r| r.source.truncate(62));
    assert_eq!(short, DestinationSizeMismatch(size(63, 62)));
    let short = band(&|r| r.band.truncate(14));
    assert_eq!(short, DestinationSizeMismatch(size(15, 14)));
    let narrow = MinimumStrideSizeMismatch(size(15, 14));
    assert_eq!(frame(&|r| r.stride = 14), narrow);
    assert_eq!(band(&|r| r.stride = 14), narrow);
    let long = frame(&|r| r.source.push(0));
    assert_eq!(long, WholeRowsMismatch(size(64, 65)));
    let long = band(&|r| r.band.push(0));
    assert_eq!(long, WholeRowsMismatch(size(16, 17)));
    // the rectangle's two rows and its width
    assert_eq!(band(&|r| r.rows = 2), BandRowsMismatch);
    let carried = CarriedRowSizeMismatch(size(9, 8));
    assert_eq!(band(&|r| r.carried = 8), carried);
}
