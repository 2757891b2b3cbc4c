//! In every floating-point mode of the caller: the answers and bytes of the default mode, and the caller's mode and exception flags afterwards
//! as they were. The exported functions alone, in another mode, go wrong.

use core::arch::asm;
use segvartin::*;

#[path = "../src/ffi.rs"]
#[allow(dead_code)]
mod ffi;

const DEFAULT: u32 = 0x1f80;
const DENORMALS_ARE_ZERO: u32 = 0x40;
const FLUSH_TO_ZERO: u32 = 0x8000;
const FLAGS: u32 = 0x3f;

/// MXCSR before and after the call, and its answer. Between the two settings nothing else computes with floats.
fn in_mode<R>(mode: u32, call: impl FnOnce() -> R) -> (u32, u32, R) {
    let (mut before, mut after) = (0u32, 0u32);
    // SAFETY: each reads or writes four bytes of a local; the default mode comes back before anything here computes with floats.
    unsafe {
        asm!("ldmxcsr [{}]", in(reg) &mode);
        asm!("stmxcsr [{}]", in(reg) &mut before);
    }
    let answer = call();
    // SAFETY: as above.
    unsafe {
        asm!("stmxcsr [{}]", in(reg) &mut after);
        asm!("ldmxcsr [{}]", in(reg) &DEFAULT);
    }
    (before, after, answer)
}

/// Four roundings; denormals kept, taken as 0, flushed to 0, both; exceptions masked or all trapped; flags clear or set.
fn modes() -> Vec<u32> {
    let mut modes = vec![DEFAULT];
    for (one_more, count) in [(0x2000, 4), (DENORMALS_ARE_ZERO, 2), (FLUSH_TO_ZERO, 2)] {
        modes = (0..count)
            .flat_map(|n| modes.iter().map(move |mode| mode + n * one_more))
            .collect();
    }
    modes.extend(modes.clone().iter().map(|mode| mode - DEFAULT));
    modes.extend(modes.clone().iter().map(|mode| mode + FLAGS));
    modes
}

fn description(
    width: u32,
    height: u32,
    sampling: YuvChromaSubsampling,
    range: YuvRange,
    matrix: YuvStandardMatrix,
) -> FrameDescription {
    FrameDescription {
        width,
        height,
        channels: YuvSourceChannels::Rgb,
        sampling,
        range,
        matrix,
        transfer: SharpYuvGammaTransfer::Srgb,
        y_stride: width,
        u_stride: width.div_ceil(2),
        v_stride: width.div_ceil(2),
    }
}

fn source(frame: &FrameDescription) -> Vec<u8> {
    (0..3 * frame.width * frame.height)
        .map(|i| (i * i * 31 + i * 7) as u8)
        .collect()
}

fn planes(frame: &FrameDescription) -> [Vec<u8>; 3] {
    let rows = match frame.sampling {
        YuvChromaSubsampling::Yuv420 => frame.height.div_ceil(2),
        YuvChromaSubsampling::Yuv422 => frame.height,
    };
    let chroma = vec![0; (frame.u_stride * rows) as usize];
    [
        vec![0; (frame.y_stride * frame.height) as usize],
        chroma.clone(),
        chroma,
    ]
}

/// What a frame call answers and leaves.
fn by_frame(frame: &FrameDescription, source: &[u8]) -> (Result<(), YuvError>, [Vec<u8>; 3]) {
    let mut planes = planes(frame);
    let [y, u, v] = &mut planes;
    let answer = rgbx_to_sharp_yuv(frame, source, 3 * frame.width, y, u, v);
    (answer, planes)
}

/// The same of bands of one row, until one is refused.
fn by_bands(frame: &FrameDescription, source: &[u8]) -> (Result<(), YuvError>, [Vec<u8>; 3]) {
    let mut planes = planes(frame);
    let [y, u, v] = &mut planes;
    let mut carried = vec![0; 3 * frame.width as usize];
    let mut state = FrameState {
        frame: *frame,
        done: 0,
    };
    let stride = 3 * frame.width;
    for row in source.chunks(stride as usize) {
        let (after, answer) = state.band(1, row, stride, y, u, v, &mut carried);
        if answer.is_err() {
            return (answer, planes);
        }
        state = after;
    }
    (Ok(()), planes)
}

fn nearest(frame: &FrameDescription) -> FrameOptions {
    let mut options = FrameOptions::of(frame);
    options.rounding = TableRounding::Nearest;
    options
}

/// What a frame call with nearest tables answers and leaves.
fn by_frame_with(frame: &FrameDescription, source: &[u8]) -> (Result<(), YuvError>, [Vec<u8>; 3]) {
    let mut planes = planes(frame);
    let [y, u, v] = &mut planes;
    let stride = 3 * frame.width;
    let answer = rgbx_to_sharp_yuv_with(frame, &nearest(frame), source, stride, y, u, v);
    (answer, planes)
}

/// The same of bands of one row, until one is refused. The matrix is given to the state alone: a band call judges it itself.
fn by_bands_with(frame: &FrameDescription, source: &[u8]) -> (Result<(), YuvError>, [Vec<u8>; 3]) {
    let mut planes = planes(frame);
    let [y, u, v] = &mut planes;
    let mut carried = vec![0; 3 * frame.width as usize];
    let stride = 3 * frame.width;
    let named = FrameDescription {
        matrix: YuvStandardMatrix::Bt601,
        ..*frame
    };
    let mut state = FrameStateWith::open(named, nearest(frame)).unwrap();
    state.frame = *frame;
    let mut answer = Ok(());
    for row in source.chunks(stride as usize) {
        (state, answer) = state.band(1, row, stride, y, u, v, &mut carried);
        if answer.is_err() {
            break;
        }
    }
    (answer, planes)
}

/// What a frame call with nearest tables answers and leaves where the frame is a window onto a larger source, 99 around it.
fn by_window(frame: &FrameDescription, source: &[u8]) -> (Result<(), YuvError>, [Vec<u8>; 3]) {
    let mut planes = planes(frame);
    let [y, u, v] = &mut planes;
    let mut options = nearest(frame);
    options.window = Window::new(2, 1, frame.width + 3, frame.height + 2);
    let [row, stride] = [frame.width, frame.width + 3].map(|width| 3 * width as usize);
    let mut large = vec![99; stride * (frame.height as usize + 2)];
    for (to, from) in large[stride..].chunks_mut(stride).zip(source.chunks(row)) {
        to[6..6 + row].copy_from_slice(from);
    }
    let answer = rgbx_to_sharp_yuv_with(frame, &options, &large, stride as u32, y, u, v);
    (answer, planes)
}

/// What a frame with nearest tables leaves as the only one of a convoy.
fn by_convoy(frame: &FrameDescription, source: &[u8]) -> (Result<(), YuvError>, [Vec<u8>; 3]) {
    let mut planes = planes(frame);
    let [y, u, v] = &mut planes;
    let mut one = ConvoyFrame::of(frame);
    one.options = nearest(frame);
    one.stride = 3 * frame.width;
    one.source.length = source.len();
    (one.y.length, one.u.length, one.v.length) = (y.len(), u.len(), v.len());
    let answer = convert_convoy(&[one], source, y, u, v);
    (answer.map_err(YuvError::from), planes)
}

/// A desk with this frame, with nearest tables, for camera 9, on the whole of buffers for one.
fn open_desk(
    desk: &mut Desk,
    frame: &FrameDescription,
    planes: &[Vec<u8>; 3],
) -> Result<(), YuvError> {
    let lengths = DeskLengths {
        y: planes[0].len(),
        u: planes[1].len(),
        v: planes[2].len(),
        carried: 3 * frame.width as usize,
    };
    let parts = DeskParts {
        y: BufferPart::new(0, lengths.y),
        u: BufferPart::new(0, lengths.u),
        v: BufferPart::new(0, lengths.v),
        carried: BufferPart::new(0, lengths.carried),
    };
    desk.open(9, frame, &nearest(frame), &parts, &lengths)
}

/// A desk as above that was opened with another matrix, a Custom one being put into it by hand: a step judges the matrix itself.
fn unasked_desk(frame: &FrameDescription, planes: &[Vec<u8>; 3]) -> Desk {
    let mut desk = Desk::default();
    if let YuvStandardMatrix::Custom(kr, kb) = frame.matrix {
        let matrix = YuvStandardMatrix::Bt601;
        let named = FrameDescription { matrix, ..*frame };
        open_desk(&mut desk, &named, planes).unwrap();
        desk.numbers[19 * 9 + 9] = 6;
        desk.customs[2 * 9..][..2].copy_from_slice(&[kr, kb]);
    } else {
        open_desk(&mut desk, frame, planes).unwrap();
    }
    desk
}

/// What a frame with nearest tables leaves at a desk, in bands of one row, until one is refused.
fn by_desk(frame: &FrameDescription, source: &[u8]) -> (Result<(), YuvError>, [Vec<u8>; 3]) {
    let mut planes = planes(frame);
    let mut carried = vec![0; 3 * frame.width as usize];
    let mut desk = unasked_desk(frame, &planes);
    let [y, u, v] = &mut planes;
    let stride = 3 * frame.width as usize;
    for row in 0..frame.height as usize {
        let part = BufferPart::new(row * stride, stride);
        let offered = desk.offer(9, 1, stride as u32, part, source.len());
        assert_eq!(offered, Ok(()));
        match desk.step(source, y, u, v, &mut carried) {
            Ok(served) => assert_eq!(served, Some(9)),
            Err(refused) => return (Err(refused.error), planes),
        }
    }
    (Ok(()), planes)
}

/// The number that the exported step answers, and the planes that it leaves, for Limited, 4:2:2 and a Custom matrix, in a band of the whole frame.
fn step_by_export(
    width: u32,
    height: u32,
    [kr, kb]: [f32; 2],
    source: &[u8],
) -> (u32, [Vec<u8>; 3]) {
    let (sampling, range) = (YuvChromaSubsampling::Yuv422, YuvRange::Limited);
    let matrix = YuvStandardMatrix::Custom(kr, kb);
    let frame = description(width, height, sampling, range, matrix);
    let mut planes = planes(&frame);
    let mut carried = vec![0; 3 * width as usize];
    let mut desk = unasked_desk(&frame, &planes);
    let part = BufferPart::new(0, source.len());
    let offered = desk.offer(9, height, 3 * width, part, source.len());
    assert_eq!(offered, Ok(()));
    let [y, u, v] = &mut planes;
    // SAFETY: each pointer is that of a slice beside its own length, or of a local; no two overlap, as the borrows say.
    let number = unsafe {
        ffi::segvartin_call_desk_step(
            source.as_ptr(),
            source.len(),
            y.as_mut_ptr(),
            y.len(),
            u.as_mut_ptr(),
            u.len(),
            v.as_mut_ptr(),
            v.len(),
            carried.as_mut_ptr(),
            carried.len(),
            &mut desk.numbers,
            &mut desk.customs,
            &mut desk.parts,
            &mut [0; 4],
        )
    };
    (number, planes)
}

/// The number that the exported frame call answers, and the planes that it leaves, for Limited, 4:2:2 and a Custom matrix.
fn by_export(width: u32, height: u32, custom: [f32; 2], source: &[u8]) -> (u32, [Vec<u8>; 3]) {
    let (sampling, range) = (YuvChromaSubsampling::Yuv422, YuvRange::Limited);
    let frame = description(width, height, sampling, range, YuvStandardMatrix::Bt601);
    let mut planes = planes(&frame);
    let [y, u, v] = &mut planes;
    let chroma = frame.u_stride;
    let numbers = [
        3 * width,
        width,
        height,
        0,
        1,
        0,
        6,
        0,
        width,
        chroma,
        chroma,
    ];
    // SAFETY: each pointer is that of a slice beside its own length, or of a local; no two overlap, as the borrows say.
    let number = unsafe {
        ffi::segvartin_call_frame(
            numbers.as_ptr(),
            numbers.len(),
            &custom,
            source.as_ptr(),
            source.len(),
            y.as_mut_ptr(),
            y.len(),
            u.as_mut_ptr(),
            u.len(),
            v.as_mut_ptr(),
            v.len(),
            &mut [0; 2],
        )
    };
    (number, planes)
}

/// The number that the exported count answers, and its counts, for Limited and a Custom matrix.
fn counts_by_export(custom: [f32; 2]) -> (u32, [u32; 256]) {
    let (numbers, mut counts) = ([0, 6], [0; 256]);
    // SAFETY: each pointer is that of an array beside its own length, or of a local; no two overlap, as the borrows say.
    let number = unsafe {
        ffi::segvartin_call_luma_counts(
            numbers.as_ptr(),
            numbers.len(),
            &custom,
            &mut counts,
            &mut [0; 2],
        )
    };
    (number, counts)
}

#[test]
fn the_same_in_every_mode() {
    let refused = Err(YuvError::MatrixNotAccepted);
    let mut matrices = vec![
        (YuvStandardMatrix::Bt601, Ok(())),
        (YuvStandardMatrix::Fcc, Ok(())),
    ];
    for (k, answer) in [
        (0.0f32.next_down(), refused),
        (f32::NAN, refused),
        (0.5f32.next_up(), refused),
        (-0.0, Ok(())),
        (0.0f32.next_up(), Ok(())),
        (0.5, Ok(())),
        (0.056, Ok(())),
    ] {
        matrices.push((YuvStandardMatrix::Custom(k, 0.257), answer));
        matrices.push((YuvStandardMatrix::Custom(0.257, k), answer));
    }
    assert_eq!(modes().len(), 64);
    for (matrix, answer) in matrices {
        for (sampling, range) in [
            (YuvChromaSubsampling::Yuv420, YuvRange::Full),
            (YuvChromaSubsampling::Yuv422, YuvRange::Limited),
        ] {
            let frame = description(5, 3, sampling, range, matrix);
            let source = source(&frame);
            let usual = by_frame(&frame, &source);
            let usual_with = by_frame_with(&frame, &source);
            assert_eq!((usual.0, usual_with.0), (answer, answer));
            for mode in modes() {
                let (before, after, got) = in_mode(mode, || by_frame(&frame, &source));
                assert_eq!((before, after, &got), (mode, mode, &usual));
                let (before, after, got) = in_mode(mode, || by_bands(&frame, &source));
                assert_eq!((before, after, &got), (mode, mode, &usual));
                let (before, after, got) = in_mode(mode, || by_frame_with(&frame, &source));
                assert_eq!((before, after, &got), (mode, mode, &usual_with));
                let (before, after, got) = in_mode(mode, || by_bands_with(&frame, &source));
                assert_eq!((before, after, &got), (mode, mode, &usual_with));
                let (before, after, got) = in_mode(mode, || by_window(&frame, &source));
                assert_eq!((before, after, &got), (mode, mode, &usual_with));
                let (before, after, got) = in_mode(mode, || by_convoy(&frame, &source));
                assert_eq!((before, after, &got), (mode, mode, &usual_with));
                let (before, after, got) = in_mode(mode, || by_desk(&frame, &source));
                assert_eq!((before, after, &got), (mode, mode, &usual_with));
                let lent = planes(&frame);
                let open = || open_desk(&mut Desk::default(), &frame, &lent);
                assert_eq!(in_mode(mode, open), (mode, mode, answer));
                let (before, after, opened) = in_mode(mode, || FrameState::open(frame));
                assert_eq!(
                    (before, after, opened.map(|state| state.done)),
                    (mode, mode, answer.map(|()| 0))
                );
                let open_with = || FrameStateWith::open(frame, nearest(&frame));
                let (before, after, opened) = in_mode(mode, open_with);
                assert_eq!(
                    (before, after, opened.map(|state| state.done)),
                    (mode, mode, answer.map(|()| 0))
                );
            }
        }
    }
}

/// One green pixel whose V is 46, and 47 where the weights are computed in another rounding mode.
#[test]
fn the_export_rounds_as_its_caller() {
    let (sampling, range) = (YuvChromaSubsampling::Yuv422, YuvRange::Limited);
    let matrix = YuvStandardMatrix::Custom(0.056, 0.257);
    let frame = description(1, 1, sampling, range, matrix);
    for rounding in 0..4 {
        let mode = DEFAULT + 0x2000 * rounding;
        let (_, _, (answer, [_, _, v])) = in_mode(mode, || by_frame(&frame, &[0, 255, 0]));
        assert_eq!((answer, v[0]), (Ok(()), 46));
        let export = || by_export(1, 1, [0.056, 0.257], &[0, 255, 0]);
        let (_, _, (number, [_, _, v])) = in_mode(mode, export);
        assert_eq!((number, v[0]), (0, if rounding == 0 { 46 } else { 47 }));
        let (_, _, (answer, [_, _, v])) = in_mode(mode, || by_desk(&frame, &[0, 255, 0]));
        assert_eq!((answer, v[0]), (Ok(()), 46));
        let export = || step_by_export(1, 1, [0.056, 0.257], &[0, 255, 0]);
        let (_, _, (number, [_, _, v])) = in_mode(mode, export);
        assert_eq!((number, v[0]), (0, if rounding == 0 { 46 } else { 47 }));
    }
}

/// Weights 101, 6782, 152; in another rounding mode the first is 100 or the last 153.
const BY_ROUNDING: [f32; 2] = [f32::from_bits(0x3c6a_0a85), f32::from_bits(0x3cb1_9188)];

/// Each accepted call goes through all colours, so there are few of them.
#[test]
fn the_same_counts_in_every_mode() {
    let [kr, kb] = BY_ROUNDING;
    for matrix in [
        YuvStandardMatrix::Fcc,
        YuvStandardMatrix::Custom(kr, kb),
        YuvStandardMatrix::Custom(0.0f32.next_down(), kb),
        YuvStandardMatrix::Custom(kr, f32::NAN),
    ] {
        let usual = luma_counts(YuvRange::Limited, matrix);
        for mode in modes() {
            let (before, after, counts) = in_mode(mode, || luma_counts(YuvRange::Limited, matrix));
            assert_eq!((before, after, counts), (mode, mode, usual));
        }
    }
}

#[test]
fn the_export_counts_as_its_caller_rounds() {
    let [kr, kb] = BY_ROUNDING;
    let usual = luma_counts(YuvRange::Limited, YuvStandardMatrix::Custom(kr, kb)).unwrap();
    for rounding in 0..4 {
        let export = || counts_by_export(BY_ROUNDING);
        let (_, _, (number, counts)) = in_mode(DEFAULT + 0x2000 * rounding, export);
        assert_eq!((number, counts == usual), (0, rounding == 0));
    }
}

/// A negative kr that counts as 0 where denormals do.
#[test]
fn the_export_takes_denormals_as_its_caller() {
    let source = [0; 45];
    for (mode, number) in [(DEFAULT, 4), (DEFAULT + DENORMALS_ARE_ZERO, 0)] {
        let export = || by_export(5, 3, [0.0f32.next_down(), 0.1], &source);
        assert_eq!(in_mode(mode, export).2.0, number);
        let export = || counts_by_export([0.0f32.next_down(), 0.1]);
        assert_eq!(in_mode(mode, export).2.0, number);
        let export = || step_by_export(5, 3, [0.0f32.next_down(), 0.1], &source);
        assert_eq!(in_mode(mode, export).2.0, number);
    }
}

/// Y4M files are made of whole numbers: no mode is set for them, and none matters.
#[test]
fn the_same_y4m_file_in_every_mode() {
    let sampling = YuvChromaSubsampling::Yuv422;
    let mut image = YuvPlanarImageMut::<u8>::alloc(5, 3, sampling);
    for (byte, i) in image.y_plane.borrow_mut().iter_mut().zip(0..) {
        *byte = i * 7;
    }
    let call = || {
        let mut file = vec![0; y4m_size(5, 3, sampling, &[])?];
        write_y4m(5, 3, sampling, &[], &mut file)?;
        let start = file.len();
        file.resize(start + y4m_picture_size(sampling, &image)?, 0);
        y4m_picture(sampling, &image, &mut file[start..])?;
        let read = Y4mFile::open(&file)?;
        let picture = read.picture(0).unwrap();
        assert_eq!((read.len(), picture.y), (1, image.y_plane.borrow()));
        let planes = [picture.y, picture.u, picture.v].concat();
        let mut again = vec![0; y4m_size(5, 3, sampling, &planes)?];
        write_y4m(5, 3, sampling, &planes, &mut again)?;
        assert_eq!(again, file);
        assert_eq!(Y4mFile::open(&file[1..]), Err(YuvError::MalformedY4m));
        Ok::<_, YuvError>(file)
    };
    let usual = call().unwrap();
    for mode in modes() {
        let (before, after, file) = in_mode(mode, call);
        assert_eq!((file.as_ref(), after), (Ok(&usual), before));
    }
}

/// Shift files, with settings and moved too, summaries and pairs are made of whole numbers: no mode is set for them, and none matters.
#[test]
fn the_same_shift_file_in_every_mode() {
    let mut image = YuvPlanarImageMut::<u8>::alloc(5, 3, YuvChromaSubsampling::Yuv420);
    for (byte, i) in image.y_plane.borrow_mut().iter_mut().zip(0..) {
        *byte = i * 7;
    }
    let call = || {
        let (mut record, mut bytes) = (vec![0; 35], vec![0; 51]);
        shift_record(1400, &image, &mut record)?;
        write_shift_file(&record, &mut bytes)?;
        let file = ShiftFile::open(&bytes)?;
        assert_eq!(
            (file.len(), file.record(0).unwrap().bytes),
            (1, &record[..])
        );
        let mut summary = [0; 2 * SUMMARY_ENTRY];
        file.build_summary(&mut summary)?;
        let found = file.find_record(&summary, 1400)?;
        assert_eq!(found.map(|record| record.bytes), Some(&record[..]));
        file.update_summary(&record, &mut summary)?;
        assert!(!file.check_summary(&summary));
        let mut other = bytes.clone();
        *other.last_mut().unwrap() ^= 1;
        let report = pair_shift_files(&bytes, &other)?;
        assert_eq!((report.equal, report.differing), (0, 1));
        let mut forward = vec![0; moved_forward_size(&bytes)?];
        move_forward(&bytes, &mut forward)?;
        let mut back = vec![0; moved_back_size(&forward)?];
        move_back(&forward, &mut back)?;
        assert_eq!(back, bytes);
        let mut settings = RecordSettings::new(YuvChromaSubsampling::Yuv420);
        settings.range = Some(YuvRange::Full);
        let mut other = vec![0; settings_record_size(&settings, &image)?];
        settings_record(1400, &settings, &image, &mut other)?;
        let mut bytes = vec![0; settings_file_size(&other)?];
        write_settings_file(&other, &mut bytes)?;
        let found = ShiftFile::open_any(&bytes)?.record(0);
        assert_eq!(found.map(|record| record.settings), Some(settings));
        record.extend(forward);
        record.extend(&bytes);
        bytes.truncate(50);
        assert_eq!(
            ShiftFile::open_any(&bytes),
            Err(YuvError::MalformedShiftFile)
        );
        record.extend(summary);
        Ok::<_, YuvError>(record)
    };
    let usual = call().unwrap();
    for mode in modes() {
        let (before, after, record) = in_mode(mode, call);
        assert_eq!((record.as_ref(), after), (Ok(&usual), before));
    }
}
