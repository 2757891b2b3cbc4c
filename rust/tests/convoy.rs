//! Several frames in one call leave what single calls in order leave, byte for byte of all buffers, up to the first that is refused; 18 before any is
//! begun; every refusal at the first place, in the middle and at the last.

use segvartin::*;

struct Noise(u64);

impl Noise {
    fn below(&mut self, n: usize) -> usize {
        self.0 ^= self.0 << 13;
        self.0 ^= self.0 >> 7;
        self.0 ^= self.0 << 17;
        (self.0 >> 33) as usize % n
    }
}

/// The buffers: source, Y, U, V.
type Buffers = [Vec<u8>; 4];

fn parts(frame: &ConvoyFrame) -> [BufferPart; 4] {
    [frame.source, frame.y, frame.u, frame.v]
}

fn pixel_bytes(channels: YuvSourceChannels) -> usize {
    match channels {
        YuvSourceChannels::Rgb | YuvSourceChannels::Bgr => 3,
        YuvSourceChannels::Rgba | YuvSourceChannels::Bgra => 4,
    }
}

/// A small frame of any settings, with a window or without; its parts have their lengths, and stand nowhere yet.
fn some_frame(noise: &mut Noise) -> ConvoyFrame {
    let (width, height) = (1 + noise.below(6), 1 + noise.below(5));
    let sampling = [YuvChromaSubsampling::Yuv420, YuvChromaSubsampling::Yuv422][noise.below(2)];
    let description = FrameDescription {
        width: width as u32,
        height: height as u32,
        channels: [
            YuvSourceChannels::Rgb,
            YuvSourceChannels::Rgba,
            YuvSourceChannels::Bgra,
            YuvSourceChannels::Bgr,
        ][noise.below(4)],
        sampling,
        range: [YuvRange::Limited, YuvRange::Full][noise.below(2)],
        matrix: [
            YuvStandardMatrix::Bt709,
            YuvStandardMatrix::Fcc,
            YuvStandardMatrix::Custom(0.25, 0.0625),
        ][noise.below(3)],
        transfer: [SharpYuvGammaTransfer::Srgb, SharpYuvGammaTransfer::Gamma2p8][noise.below(2)],
        y_stride: (width + noise.below(3)) as u32,
        u_stride: (width.div_ceil(2) + noise.below(3)) as u32,
        v_stride: (width.div_ceil(2) + noise.below(3)) as u32,
    };
    let mut frame = ConvoyFrame::of(&description);
    assert_eq!(
        (frame.stride, parts(&frame)),
        (0, [BufferPart::default(); 4])
    );
    assert_eq!(frame.options, FrameOptions::of(&description));
    frame.options.rounding = [TableRounding::Truncated, TableRounding::Nearest][noise.below(2)];
    if noise.below(2) == 0 {
        let (left, top) = (noise.below(3), noise.below(3));
        frame.options.window = Window::new(
            left as u32,
            top as u32,
            (left + width + noise.below(3)) as u32,
            (top + height + noise.below(3)) as u32,
        );
    }
    let window = frame.options.window;
    let row = window.source_width as usize * pixel_bytes(description.channels);
    frame.stride = (row + noise.below(3)) as u32;
    let rows = match sampling {
        YuvChromaSubsampling::Yuv420 => height.div_ceil(2),
        YuvChromaSubsampling::Yuv422 => height,
    };
    frame.source.length = frame.stride as usize * window.source_height as usize;
    frame.y.length = description.y_stride as usize * height;
    frame.u.length = description.u_stride as usize * rows;
    frame.v.length = description.v_stride as usize * rows;
    frame
}

/// So many frames, their parts behind one another from the last frame to the first, with gaps, and the buffers for them.
fn some_convoy(count: usize, noise: &mut Noise) -> (Vec<ConvoyFrame>, Buffers) {
    let mut frames: Vec<_> = (0..count).map(|_| some_frame(noise)).collect();
    let mut ends = [noise.below(3); 4];
    for frame in frames.iter_mut().rev() {
        let lent = [&mut frame.source, &mut frame.y, &mut frame.u, &mut frame.v];
        for (part, end) in lent.into_iter().zip(&mut ends) {
            part.offset = *end;
            *end += part.length + noise.below(3);
        }
    }
    let buffers = ends.map(|end| (0..end).map(|_| noise.below(256) as u8).collect());
    (frames, buffers)
}

fn convert(frames: &[ConvoyFrame], buffers: &mut Buffers) -> Result<(), ConvoyError> {
    let [source, y, u, v] = buffers;
    convert_convoy(frames, source, y, u, v)
}

fn cut(buffer: &mut [u8], part: BufferPart) -> &mut [u8] {
    &mut buffer[part.offset..part.offset + part.length]
}

/// 18 by the numbers of the parts' bytes.
fn is_broken(frames: &[ConvoyFrame], buffers: &Buffers) -> bool {
    let outside = |frame: &ConvoyFrame| {
        let ends = parts(frame).map(|part| part.offset as u128 + part.length as u128);
        ends.iter()
            .zip(buffers)
            .any(|(end, buffer)| *end > buffer.len() as u128)
    };
    if frames.len() > MAX_CONVOY || frames.iter().any(outside) {
        return true;
    }
    (1..4).any(|plane| {
        let mut owned = vec![false; buffers[plane].len()];
        let all = frames.iter().map(|frame| parts(frame)[plane]);
        all.flat_map(|part| part.offset..part.offset + part.length)
            .any(|byte| std::mem::replace(&mut owned[byte], true))
    })
}

/// Single calls in order.
fn one_by_one(frames: &[ConvoyFrame], buffers: &mut Buffers) -> Result<(), ConvoyError> {
    if is_broken(frames, buffers) {
        let error = YuvError::PartsMismatch;
        return Err(ConvoyError { done: 0, error });
    }
    let [source, y, u, v] = buffers;
    for (done, frame) in frames.iter().enumerate() {
        rgbx_to_sharp_yuv_with(
            &frame.frame,
            &frame.options,
            cut(source, frame.source),
            frame.stride,
            cut(y, frame.y),
            cut(u, frame.u),
            cut(v, frame.v),
        )
        .map_err(|error| ConvoyError { done, error })?;
    }
    Ok(())
}

/// The call, held to single calls; tells its answer.
fn held(frames: &[ConvoyFrame], buffers: &Buffers) -> Result<(), ConvoyError> {
    let (mut left, mut expected) = (buffers.clone(), buffers.clone());
    let answer = convert(frames, &mut left);
    assert_eq!(answer, one_by_one(frames, &mut expected));
    assert_eq!(left, expected);
    answer
}

#[test]
fn every_count_of_frames() {
    let mut noise = Noise(1);
    for count in 0..=MAX_CONVOY {
        let (frames, buffers) = some_convoy(count, &mut noise);
        assert_eq!(held(&frames, &buffers), Ok(()));
    }
    for count in [MAX_CONVOY + 1, 200] {
        let (frames, buffers) = some_convoy(count, &mut noise);
        let refused = held(&frames, &buffers).unwrap_err();
        assert_eq!(
            (refused.error, refused.place()),
            (YuvError::PartsMismatch, None)
        );
    }
}

#[test]
fn each_refusal_at_its_place() {
    let mut noise = Noise(2);
    for number in [2, 3, 4, 14, 6, 7, 8, 9, 10, 11] {
        for place in [0, 1, 31, 63] {
            let (mut frames, buffers) = some_convoy(MAX_CONVOY, &mut noise);
            let frame = &mut frames[place];
            match number {
                2 => frame.frame.width = 0,
                3 => frame.frame.height = 16_385,
                4 => frame.frame.matrix = YuvStandardMatrix::Custom(f32::NAN, 0.0),
                14 => frame.options.window.top = u32::MAX,
                6 => frame.source.length = 0,
                7 => frame.stride = 0,
                8 => frame.frame.y_stride = 0,
                9 => frame.y.length = 0,
                10 => frame.u.length = 0,
                _ => frame.frame.v_stride = 0,
            }
            for later in &mut frames[place + 1..] {
                later.frame.height = 0;
            }
            let refused = held(&frames, &buffers).unwrap_err();
            assert_eq!((refused.error.number(), refused.done), (number, place));
            assert_eq!(refused.place(), Some(place));
            assert_eq!(YuvError::from(refused), refused.error);
            assert!(
                refused
                    .to_string()
                    .starts_with(&format!("frame {place}: refused {number}: "))
            );
        }
    }
}

#[test]
fn parts_that_do_not_fit() {
    let mut noise = Noise(3);
    for buffer in 0..4 {
        for place in 0..3 {
            let (frames, buffers) = some_convoy(3, &mut noise);
            let end = buffers[buffer].len();
            let other = parts(&frames[(place + 1) % 3])[buffer];
            for (offset, length, broken) in [
                (other.offset, other.length, buffer > 0),
                (other.offset, 0, false),
                (end, 0, false),
                (end + 1, 0, true),
                (end, 1, true),
                (0, end + 1, true),
                (usize::MAX, 2, true),
                (1, usize::MAX, true),
                (usize::MAX, usize::MAX, true),
            ] {
                let mut changed = frames.clone();
                let part = BufferPart::new(offset, length);
                match buffer {
                    0 => changed[place].source = part,
                    1 => changed[place].y = part,
                    2 => changed[place].u = part,
                    _ => changed[place].v = part,
                }
                let is_18 = |answer: ConvoyError| answer.error == YuvError::PartsMismatch;
                assert_eq!(held(&changed, &buffers).is_err_and(is_18), broken);
            }
        }
    }
    let error = YuvError::PartsMismatch;
    assert_eq!((error.number(), error.size()), (18, None));
    let text = "refused 18: too many frames, a part outside its buffer, or shared bytes";
    assert_eq!(ConvoyError { done: 0, error }.to_string(), text);
}

#[test]
fn changed_at_random() {
    let mut noise = Noise(4);
    let mut finished = 0;
    for _ in 0..2_000 {
        let count = noise.below(7);
        let (mut frames, buffers) = some_convoy(count, &mut noise);
        for frame in &mut frames {
            let by = noise.below(3);
            match noise.below(40) {
                0 => frame.y.offset = frame.y.offset.wrapping_sub(by),
                1 => frame.u.offset += by,
                2 => frame.v.length += by,
                3 => frame.source.length -= by,
                4 => frame.source = BufferPart::new(0, frame.source.length),
                5 => frame.frame.width += 1,
                _ => {}
            }
        }
        finished += usize::from(held(&frames, &buffers).is_ok());
    }
    assert!(finished > 500, "{finished}");
}
