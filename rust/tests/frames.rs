//! Worked lines and refusals of docs/RULES.md, through the wrapper.

use segvartin::*;

type Sharp = fn(
    &mut YuvPlanarImageMut<u8>,
    &[u8],
    u32,
    YuvRange,
    YuvStandardMatrix,
    SharpYuvGammaTransfer,
) -> Result<(), YuvError>;

/// The call, its sampling, the bytes of a pixel, where red stands.
const CALLS: [(Sharp, YuvChromaSubsampling, usize, usize); 8] = [
    (rgb_to_sharp_yuv420, YuvChromaSubsampling::Yuv420, 3, 0),
    (bgr_to_sharp_yuv420, YuvChromaSubsampling::Yuv420, 3, 2),
    (rgba_to_sharp_yuv420, YuvChromaSubsampling::Yuv420, 4, 0),
    (bgra_to_sharp_yuv420, YuvChromaSubsampling::Yuv420, 4, 2),
    (rgb_to_sharp_yuv422, YuvChromaSubsampling::Yuv422, 3, 0),
    (bgr_to_sharp_yuv422, YuvChromaSubsampling::Yuv422, 3, 2),
    (rgba_to_sharp_yuv422, YuvChromaSubsampling::Yuv422, 4, 0),
    (bgra_to_sharp_yuv422, YuvChromaSubsampling::Yuv422, 4, 2),
];

const TRANSFERS: [SharpYuvGammaTransfer; 4] = [
    SharpYuvGammaTransfer::Srgb,
    SharpYuvGammaTransfer::Rec709,
    SharpYuvGammaTransfer::Gamma2p2,
    SharpYuvGammaTransfer::Gamma2p8,
];

fn planes<'a>(image: &'a YuvPlanarImageMut<u8>) -> [&'a [u8]; 3] {
    [
        image.y_plane.borrow(),
        image.u_plane.borrow(),
        image.v_plane.borrow(),
    ]
}

#[test]
fn worked_lines() {
    use YuvRange::{Full, Limited};
    for (sharp, sampling, c, red) in CALLS {
        for transfer in TRANSFERS {
            let convert = |width: u32, height: u32, rgb: [u8; 3], range| {
                let mut image = YuvPlanarImageMut::<u8>::alloc(width, height, sampling);
                let mut pixel = vec![77; c];
                pixel[red] = rgb[0];
                pixel[1] = rgb[1];
                pixel[2 - red] = rgb[2];
                let source = pixel.repeat(width as usize * height as usize);
                sharp(
                    &mut image,
                    &source,
                    width * c as u32,
                    range,
                    YuvStandardMatrix::Bt601,
                    transfer,
                )
                .unwrap();
                planes(&image).map(|plane| {
                    assert!(plane.iter().all(|byte| *byte == plane[0]));
                    plane[0]
                })
            };
            assert_eq!(convert(1, 1, [255, 0, 0], Full), [76, 85, 255]);
            if sampling == YuvChromaSubsampling::Yuv422 {
                assert_eq!(convert(1, 1, [0, 255, 0], Limited), [145, 54, 34]);
            }
            for (w, h) in [(1, 1), (2, 2), (3, 3), (4, 5), (5, 4)] {
                assert_eq!(convert(w, h, [0, 0, 0], Limited), [16, 128, 128]);
                assert_eq!(convert(w, h, [255, 255, 255], Limited), [235, 128, 128]);
            }
        }
    }
}

/// 2 × 2 pixels, Rgb, Full, Bt601, sRGB: what the call without options leaves, then what one with this rounding leaves.
fn four_pixels(
    sampling: YuvChromaSubsampling,
    rounding: TableRounding,
    source: &[u8; 12],
) -> [[Vec<u8>; 3]; 2] {
    let frame = FrameDescription {
        width: 2,
        height: 2,
        channels: YuvSourceChannels::Rgb,
        sampling,
        range: YuvRange::Full,
        matrix: YuvStandardMatrix::Bt601,
        transfer: SharpYuvGammaTransfer::Srgb,
        y_stride: 2,
        u_stride: 1,
        v_stride: 1,
    };
    let mut options = FrameOptions::of(&frame);
    options.rounding = rounding;
    let rows = if sampling == YuvChromaSubsampling::Yuv420 {
        1
    } else {
        2
    };
    let mut left = [
        [vec![0; 4], vec![0; rows], vec![0; rows]],
        Default::default(),
    ];
    left[1] = left[0].clone();
    let [[y, u, v], [y_with, u_with, v_with]] = &mut left;
    rgbx_to_sharp_yuv(&frame, source, 6, y, u, v).unwrap();
    rgbx_to_sharp_yuv_with(&frame, &options, source, 6, y_with, u_with, v_with).unwrap();
    left
}

/// Flat red 10 comes back from the tables as 9 truncated and as 10 nearest; four colours whose chroma bytes all differ. tests/c/frames.c says how
/// the bytes were worked out.
#[test]
fn roundings() {
    use TableRounding::{Nearest, Truncated};
    use YuvChromaSubsampling::{Yuv420, Yuv422};
    let red = [10, 0, 0, 10, 0, 0, 10, 0, 0, 10, 0, 0];
    let colours = [190, 50, 50, 30, 210, 60, 100, 80, 170, 0, 240, 170];
    let luma = [92, 139, 96, 160];
    for (sampling, rounding, flat, cb, cr) in [
        (Yuv420, Truncated, 132, &[110][..], &[144][..]),
        (Yuv420, Nearest, 133, &[111], &[143]),
        (Yuv422, Truncated, 132, &[86, 150], &[157, 98]),
        (Yuv422, Nearest, 133, &[87, 151], &[158, 97]),
    ] {
        let [without, with] = four_pixels(sampling, rounding, &red);
        let rows = cb.len();
        assert_eq!(with, [vec![3; 4], vec![126; rows], vec![flat; rows]]);
        assert_eq!(without, [vec![3; 4], vec![126; rows], vec![132; rows]]);
        let [without, with] = four_pixels(sampling, rounding, &colours);
        assert_eq!(with, [&luma[..], cb, cr]);
        assert_eq!(with == without, rounding == Truncated);
    }
}

/// 5 × 3 pixels of 4 bytes, strides 22, 7, 5, 5: its fields may be spoilt before the call.
struct Request {
    width: u32,
    height: u32,
    matrix: YuvStandardMatrix,
    stride: u32,
    plane_strides: [u32; 3],
    source: Vec<u8>,
    planes: [Vec<u8>; 3],
}

impl Request {
    fn new() -> Request {
        Request {
            width: 5,
            height: 3,
            matrix: YuvStandardMatrix::Bt709,
            stride: 22,
            plane_strides: [7, 5, 5],
            source: vec![9; 66],
            planes: [vec![1; 21], vec![2; 10], vec![3; 10]],
        }
    }

    /// The answer of rgba_to_sharp_yuv420, which is that of the call with options too. A refusal writes no byte.
    fn call(&self) -> Result<(), YuvError> {
        let mut after = self.planes.clone();
        let [y, u, v] = &mut after;
        let mut image = YuvPlanarImageMut {
            y_plane: BufferStoreMut::Borrowed(y),
            y_stride: self.plane_strides[0],
            u_plane: BufferStoreMut::Borrowed(u),
            u_stride: self.plane_strides[1],
            v_plane: BufferStoreMut::Borrowed(v),
            v_stride: self.plane_strides[2],
            width: self.width,
            height: self.height,
        };
        let transfer = SharpYuvGammaTransfer::Rec709;
        let answer = rgba_to_sharp_yuv420(
            &mut image,
            &self.source,
            self.stride,
            YuvRange::Full,
            self.matrix,
            transfer,
        );
        if answer.is_err() {
            assert_eq!(after, self.planes);
        }
        assert_eq!(self.call_with(TableRounding::Nearest), answer);
        answer
    }

    fn call_with(&self, rounding: TableRounding) -> Result<(), YuvError> {
        let frame = FrameDescription {
            width: self.width,
            height: self.height,
            channels: YuvSourceChannels::Rgba,
            sampling: YuvChromaSubsampling::Yuv420,
            range: YuvRange::Full,
            matrix: self.matrix,
            transfer: SharpYuvGammaTransfer::Rec709,
            y_stride: self.plane_strides[0],
            u_stride: self.plane_strides[1],
            v_stride: self.plane_strides[2],
        };
        let mut options = FrameOptions::of(&frame);
        options.rounding = rounding;
        let mut after = self.planes.clone();
        let [y, u, v] = &mut after;
        let answer = rgbx_to_sharp_yuv_with(&frame, &options, &self.source, self.stride, y, u, v);
        if answer.is_err() {
            assert_eq!(after, self.planes);
        }
        answer
    }
}

fn refused(spoil: impl Fn(&mut Request)) -> YuvError {
    let mut request = Request::new();
    spoil(&mut request);
    request.call().expect_err("a refusal")
}

fn sizes(expected: usize, received: usize) -> MismatchedSize {
    MismatchedSize { expected, received }
}

#[test]
fn refusals() {
    use YuvError::*;
    use YuvStandardMatrix::Custom;
    assert_eq!(Request::new().call(), Ok(()));
    assert_eq!(refused(|r| r.width = 0), ZeroBaseSize);
    assert_eq!(refused(|r| r.height = 0), ZeroBaseSize);
    assert_eq!(refused(|r| r.width = 16_385), SizeTooLarge);
    assert_eq!(refused(|r| r.height = u32::MAX), SizeTooLarge);
    for k in [
        f32::NAN,
        0.5f32.next_up(),
        0.0f32.next_down(),
        f32::INFINITY,
        -1.0,
    ] {
        assert_eq!(refused(|r| r.matrix = Custom(k, 0.1)), MatrixNotAccepted);
        assert_eq!(refused(|r| r.matrix = Custom(0.1, k)), MatrixNotAccepted);
    }
    assert_eq!(
        refused(|r| r.source.truncate(63)),
        DestinationSizeMismatch(sizes(64, 63))
    );
    assert_eq!(
        refused(|r| r.source.clear()),
        DestinationSizeMismatch(sizes(64, 0))
    );
    assert_eq!(
        refused(|r| r.stride = 19),
        MinimumStrideSizeMismatch(sizes(20, 19))
    );
    assert_eq!(
        refused(|r| r.plane_strides[0] = 4),
        LumaPlaneMinimumSizeMismatch(sizes(15, 12))
    );
    assert_eq!(
        refused(|r| r.planes[0].truncate(18)),
        LumaPlaneSizeMismatch(sizes(19, 18))
    );
    assert_eq!(
        refused(|r| r.plane_strides[1] = 2),
        UPlaneMinimumSizeMismatch(sizes(6, 4))
    );
    assert_eq!(
        refused(|r| r.planes[1].truncate(7)),
        UPlaneMinimumSizeMismatch(sizes(8, 7))
    );
    assert_eq!(
        refused(|r| r.plane_strides[2] = u32::MAX),
        VPlaneMinimumSizeMismatch(sizes(u32::MAX as usize + 3, 10))
    );
    assert_eq!(
        refused(|r| r.planes[2].truncate(7)),
        VPlaneMinimumSizeMismatch(sizes(8, 7))
    );
    assert_eq!(
        refused(|r| r.source.truncate(64)),
        WholeRowsMismatch(sizes(66, 64))
    );
    assert_eq!(
        refused(|r| r.planes[0].push(0)),
        WholeRowsMismatch(sizes(21, 22))
    );
    assert_eq!(
        refused(|r| r.planes[2].truncate(8)),
        WholeRowsMismatch(sizes(10, 8))
    );
}

#[test]
fn accepted_at_the_limits() {
    for k in [0.0, -0.0, 0.5] {
        let mut request = Request::new();
        request.matrix = YuvStandardMatrix::Custom(k, 0.5 - k);
        assert_eq!(request.call(), Ok(()));
    }
    let mut image = YuvPlanarImageMut::<u8>::alloc(16_384, 1, YuvChromaSubsampling::Yuv420);
    let source = vec![255; 3 * 16_384];
    let (range, matrix, transfer) = (
        YuvRange::Limited,
        YuvStandardMatrix::Bt601,
        SharpYuvGammaTransfer::Srgb,
    );
    assert_eq!(
        rgb_to_sharp_yuv420(&mut image, &source, 3 * 16_384, range, matrix, transfer),
        Ok(())
    );
    assert_eq!(planes(&image)[0], vec![235; 16_384]);
    let mut image =
        YuvPlanarImageMut::<u8>::alloc(u32::MAX, u32::MAX, YuvChromaSubsampling::Yuv422);
    assert_eq!(
        rgb_to_sharp_yuv422(&mut image, &[], 0, range, matrix, transfer),
        Err(YuvError::SizeTooLarge)
    );
}

#[test]
fn errors_say_their_numbers() {
    let error = refused(|r| r.planes[0].truncate(18));
    assert_eq!((error.number(), error.size()), (9, Some(sizes(19, 18))));
    assert_eq!(
        error.to_string(),
        "refused 9: Y is too short, expected 19, received 18"
    );
    assert_eq!(
        YuvError::ZeroBaseSize.to_string(),
        "refused 2: width or height is 0"
    );
}
