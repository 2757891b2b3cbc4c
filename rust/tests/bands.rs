//! Bands of every cut of a small frame leave what one frame call leaves, under both roundings of the tables; refused bands change nothing.

use segvartin::*;

const HEIGHTS: [u32; 4] = [1, 2, 5, 6];

fn description(sampling: YuvChromaSubsampling, height: u32) -> FrameDescription {
    FrameDescription {
        width: 5,
        height,
        channels: YuvSourceChannels::Bgra,
        sampling,
        range: YuvRange::Limited,
        matrix: YuvStandardMatrix::Custom(0.25, 0.0625),
        transfer: SharpYuvGammaTransfer::Gamma2p8,
        y_stride: 6,
        u_stride: 4,
        v_stride: 3,
    }
}

fn chroma_rows(frame: &FrameDescription) -> usize {
    match frame.sampling {
        YuvChromaSubsampling::Yuv420 => frame.height.div_ceil(2) as usize,
        YuvChromaSubsampling::Yuv422 => frame.height as usize,
    }
}

fn empty_planes(frame: &FrameDescription) -> [Vec<u8>; 3] {
    let rows = chroma_rows(frame);
    [
        vec![0xee; 6 * frame.height as usize],
        vec![0xee; 4 * rows],
        vec![0xee; 3 * rows],
    ]
}

fn source(frame: &FrameDescription) -> Vec<u8> {
    (0..20 * frame.height)
        .map(|i| (i * i * 31 + i * 7) as u8)
        .collect()
}

/// The next rows, taken from the whole source. A refusal must change nothing.
fn band(
    state: FrameState,
    rows: u32,
    source: &[u8],
    planes: &mut [Vec<u8>; 3],
    carried: &mut [u8],
) -> (FrameState, Result<(), YuvError>) {
    let first = 20 * state.done as usize;
    let [y, u, v] = planes;
    state.band(
        rows,
        &source[first..first + 20 * rows as usize],
        20,
        y,
        u,
        v,
        carried,
    )
}

#[test]
fn every_cut_is_the_frame() {
    for (sampling, height) in [YuvChromaSubsampling::Yuv420, YuvChromaSubsampling::Yuv422]
        .into_iter()
        .flat_map(|s| HEIGHTS.map(|h| (s, h)))
    {
        let frame = description(sampling, height);
        let source = source(&frame);
        let mut whole = empty_planes(&frame);
        let [y, u, v] = &mut whole;
        rgbx_to_sharp_yuv(&frame, &source, 20, y, u, v).unwrap();
        // bit i set: a band ends after row i
        for cuts in 0u32..1 << (height - 1) {
            let mut planes = empty_planes(&frame);
            let mut carried = [0; 16];
            let mut state = FrameState::open(frame).unwrap();
            assert_eq!(state, FrameState { frame, done: 0 });
            for end in (1..=height).filter(|end| *end == height || cuts >> (end - 1) & 1 == 1) {
                let (after, answer) =
                    band(state, end - state.done, &source, &mut planes, &mut carried);
                assert_eq!((after, answer), (FrameState { frame, done: end }, Ok(())));
                state = after;
            }
            assert_eq!(planes, whole);
            assert_eq!(carried[15], 0);
        }
    }
}

fn with(frame: &FrameDescription, rounding: TableRounding) -> FrameOptions {
    let mut options = FrameOptions::of(frame);
    assert_eq!(options.rounding, TableRounding::Truncated);
    options.rounding = rounding;
    options
}

#[test]
fn every_cut_is_the_frame_with_options() {
    for (sampling, rounding) in [YuvChromaSubsampling::Yuv420, YuvChromaSubsampling::Yuv422]
        .into_iter()
        .flat_map(|s| [TableRounding::Truncated, TableRounding::Nearest].map(|r| (s, r)))
    {
        let frame = description(sampling, 6);
        let options = with(&frame, rounding);
        let source = source(&frame);
        let [mut without, mut whole] = [empty_planes(&frame), empty_planes(&frame)];
        let [y, u, v] = &mut without;
        rgbx_to_sharp_yuv(&frame, &source, 20, y, u, v).unwrap();
        let [y, u, v] = &mut whole;
        rgbx_to_sharp_yuv_with(&frame, &options, &source, 20, y, u, v).unwrap();
        // Truncated is the call without options; luma goes through no table
        assert_eq!(whole == without, rounding == TableRounding::Truncated);
        assert_eq!(whole[0], without[0]);
        for cuts in 0u32..32 {
            let [y, u, v] = &mut empty_planes(&frame);
            let mut carried = [0; 15];
            let mut state = FrameStateWith::open(frame, options).unwrap();
            for end in (1..=6).filter(|end| *end == 6 || cuts >> (end - 1) & 1 == 1) {
                let band = &source[20 * state.done as usize..20 * end as usize];
                let rows = end - state.done;
                let (after, answer) = state.band(rows, band, 20, y, u, v, &mut carried);
                assert_eq!(answer, Ok(()));
                assert_eq!(
                    (after.frame, after.options, after.done),
                    (frame, options, end)
                );
                state = after;
            }
            assert_eq!([&*y, &*u, &*v], [&whole[0], &whole[1], &whole[2]]);
            let (after, answer) = state.band(1, &source[..20], 20, y, u, v, &mut carried);
            assert_eq!((after, answer), (state, Err(YuvError::BandRowsMismatch)));
        }
    }
}

#[test]
fn refused_openings_with_options() {
    let frame = description(YuvChromaSubsampling::Yuv420, 5);
    let options = with(&frame, TableRounding::Nearest);
    let opened = |frame| FrameStateWith::open(frame, options).map(|state| state.done);
    assert_eq!(opened(frame), Ok(0));
    assert_eq!(
        opened(FrameDescription { width: 0, ..frame }),
        Err(YuvError::ZeroBaseSize)
    );
    let matrix = YuvStandardMatrix::Custom(f32::NAN, 0.1);
    assert_eq!(
        opened(FrameDescription { matrix, ..frame }),
        Err(YuvError::MatrixNotAccepted)
    );
}

#[test]
fn refusals_change_nothing() {
    let frame = description(YuvChromaSubsampling::Yuv420, 5);
    let source = source(&frame);
    let mut planes = empty_planes(&frame);
    let mut carried = [0; 15];
    let (state, answer) = band(
        FrameState::open(frame).unwrap(),
        3,
        &source,
        &mut planes,
        &mut carried,
    );
    assert_eq!(answer, Ok(()));
    let before = (planes.clone(), carried);
    let [y, u, v] = &mut planes;
    let size = |expected, received| MismatchedSize { expected, received };
    let gone = FrameState {
        frame,
        done: u32::MAX,
    };
    let zero = FrameState {
        frame: FrameDescription { height: 0, ..frame },
        done: 0,
    };
    assert_eq!(
        state.band(0, &[], 20, y, u, v, &mut carried),
        (state, Err(YuvError::BandRowsMismatch))
    );
    assert_eq!(
        state.band(3, &source[..60], 20, y, u, v, &mut carried),
        (state, Err(YuvError::BandRowsMismatch))
    );
    assert_eq!(
        gone.band(1, &source[..20], 20, y, u, v, &mut carried),
        (gone, Err(YuvError::BandRowsMismatch))
    );
    assert_eq!(
        zero.band(1, &source[..20], 20, y, u, v, &mut carried),
        (zero, Err(YuvError::ZeroBaseSize))
    );
    let short = Err(YuvError::DestinationSizeMismatch(size(40, 39)));
    assert_eq!(
        state.band(2, &source[..39], 20, y, u, v, &mut carried),
        (state, short)
    );
    let not_whole = Err(YuvError::WholeRowsMismatch(size(30, 29)));
    assert_eq!(
        state.band(1, &source[..20], 20, &mut y[..29], u, v, &mut carried),
        (state, not_whole)
    );
    let narrow = Err(YuvError::CarriedRowSizeMismatch(size(15, 14)));
    assert_eq!(
        state.band(1, &source[..20], 20, y, u, v, &mut carried[..14]),
        (state, narrow)
    );
    assert_eq!((planes, carried), before);
}

#[test]
fn refused_openings() {
    let frame = description(YuvChromaSubsampling::Yuv422, 5);
    assert_eq!(
        FrameState::open(FrameDescription { width: 0, ..frame }),
        Err(YuvError::ZeroBaseSize)
    );
    assert_eq!(
        FrameState::open(FrameDescription {
            height: 16_385,
            ..frame
        }),
        Err(YuvError::SizeTooLarge)
    );
    let matrix = YuvStandardMatrix::Custom(0.1, f32::NAN);
    assert_eq!(
        FrameState::open(FrameDescription { matrix, ..frame }),
        Err(YuvError::MatrixNotAccepted)
    );
    let opened = FrameState::open(FrameDescription {
        y_stride: 0,
        ..frame
    });
    assert_eq!(opened.map(|state| state.done), Ok(0));
}
