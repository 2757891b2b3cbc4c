//! A desk for 32 cameras: each call is held to a plain re-statement over places and the single band call, by its answer, the desk's numbers and every
//! byte of all five buffers; each finished frame to one frame call. Every refusal, the round, 32 steps, and desks that no call left.

use segvartin::*;

struct Noise(u64);

impl Noise {
    fn below(&mut self, n: usize) -> usize {
        self.0 ^= self.0 << 13;
        self.0 ^= self.0 >> 7;
        self.0 ^= self.0 << 17;
        (self.0 >> 33) as usize % n
    }
}

const ROOM: usize = 2048;

/// Source, Y, U, V, carried rows.
type Buffers = [Vec<u8>; 5];

type Band = (u32, u32, BufferPart);

/// What stands at a number: a frame with the rows done, its parts, the band that waits, and the source of its rows so far.
#[derive(Clone)]
struct Place {
    state: FrameStateWith,
    parts: DeskParts,
    band: Option<Band>,
    rows: Vec<u8>,
}

/// The desk over again, and both of their buffers.
struct Scene {
    desk: Desk,
    buffers: Buffers,
    places: Vec<Option<Place>>,
    first: usize,
    finished: usize,
}

fn list(parts: &DeskParts) -> [BufferPart; 4] {
    [parts.y, parts.u, parts.v, parts.carried]
}

fn is_outside(part: BufferPart, length: usize) -> bool {
    part.offset as u128 + part.length as u128 > length as u128
}

fn overlap(a: BufferPart, b: BufferPart) -> bool {
    let ends = [a, b].map(|part| part.offset as u128 + part.length as u128);
    (a.offset.max(b.offset) as u128) < ends[0].min(ends[1])
}

fn pixel_bytes(channels: YuvSourceChannels) -> usize {
    match channels {
        YuvSourceChannels::Rgb | YuvSourceChannels::Bgr => 3,
        YuvSourceChannels::Rgba | YuvSourceChannels::Bgra => 4,
    }
}

fn row_bytes(state: &FrameStateWith) -> usize {
    state.options.window.source_width as usize * pixel_bytes(state.frame.channels)
}

fn cut(buffer: &mut [u8], part: BufferPart) -> &mut [u8] {
    &mut buffer[part.offset..part.offset + part.length]
}

/// The numbers of a place, but for the codes of its settings.
fn numbers(place: Option<&Place>) -> ([u32; 13], [u64; 10]) {
    let Some(place) = place else {
        return ([0; 13], [0; 10]);
    };
    let (frame, window) = (place.state.frame, place.state.options.window);
    let (rows, stride, band) = place.band.unwrap_or_default();
    let mut parts = [0; 10];
    let [y, u, v, carried] = list(&place.parts);
    for (pair, part) in parts.chunks_exact_mut(2).zip([band, y, u, v, carried]) {
        pair.copy_from_slice(&[part.offset as u64, part.length as u64]);
    }
    let kind = 1 + u32::from(place.band.is_some());
    let numbers = [
        kind,
        place.state.done,
        rows,
        stride,
        frame.width,
        frame.height,
        frame.y_stride,
        frame.u_stride,
        frame.v_stride,
        window.left,
        window.top,
        window.source_width,
        window.source_height,
    ];
    (numbers, parts)
}

impl Scene {
    fn new(noise: &mut Noise) -> Scene {
        Scene {
            desk: Desk::default(),
            buffers: [(); 5].map(|()| (0..ROOM).map(|_| noise.below(256) as u8).collect()),
            places: vec![None; CAMERAS as usize],
            first: 0,
            finished: 0,
        }
    }

    /// The desk's numbers are those of the places.
    fn check(&self) {
        for (camera, place) in self.places.iter().enumerate() {
            let at = &self.desk.numbers[19 * camera..][..19];
            let (numbers, parts) = numbers(place.as_ref());
            assert_eq!((&at[..6], &at[11..14]), (&numbers[..6], &numbers[6..9]));
            assert_eq!(at[15..19], numbers[9..13]);
            assert_eq!(self.desk.parts[10 * camera..][..10], parts);
            let custom = match place.as_ref().map(|place| place.state.frame.matrix) {
                Some(YuvStandardMatrix::Custom(kr, kb)) => [kr, kb],
                _ => [0.0, 0.0],
            };
            assert_eq!(self.desk.customs[2 * camera..][..2], custom);
        }
        assert_eq!(self.desk.numbers[608] as usize, self.first);
    }

    fn expected_open(
        &mut self,
        camera: u32,
        frame: &FrameDescription,
        options: &FrameOptions,
        parts: &DeskParts,
    ) -> Result<(), YuvError> {
        if camera >= CAMERAS {
            return Err(YuvError::CameraMismatch);
        }
        if self.places[camera as usize].is_some() {
            return Err(YuvError::CameraInUse);
        }
        let outside = |part: BufferPart| is_outside(part, ROOM);
        let mut open = self.places.iter().flatten();
        let taken = |other: &Place| {
            let pairs = list(parts).into_iter().zip(list(&other.parts));
            pairs.into_iter().any(|(a, b)| overlap(a, b))
        };
        if list(parts).into_iter().any(outside) || open.any(taken) {
            return Err(YuvError::PartsMismatch);
        }
        let state = FrameStateWith::open(*frame, *options)?;
        let rows = vec![0; row_bytes(&state) * options.window.source_height as usize];
        self.places[camera as usize] = Some(Place {
            state,
            parts: *parts,
            band: None,
            rows,
        });
        Ok(())
    }

    fn open(
        &mut self,
        camera: u32,
        frame: &FrameDescription,
        options: &FrameOptions,
        parts: &DeskParts,
    ) -> Result<(), YuvError> {
        let lengths = DeskLengths {
            y: ROOM,
            u: ROOM,
            v: ROOM,
            carried: ROOM,
        };
        let answer = self.desk.open(camera, frame, options, parts, &lengths);
        assert_eq!(answer, self.expected_open(camera, frame, options, parts));
        self.check();
        answer
    }

    fn offer(&mut self, camera: u32, (rows, stride, part): Band) -> Result<(), YuvError> {
        let expected = match self.places.get_mut(camera as usize) {
            None | Some(None) => Err(YuvError::CameraMismatch),
            Some(Some(place)) if place.band.is_some() => Err(YuvError::BandStillWaiting),
            Some(Some(_)) if is_outside(part, ROOM) => Err(YuvError::PartsMismatch),
            Some(Some(place)) => {
                place.band = Some((rows, stride, part));
                Ok(())
            }
        };
        let answer = self.desk.offer(camera, rows, stride, part, ROOM);
        assert_eq!(answer, expected);
        self.check();
        answer
    }

    /// The band call on copies of the parts, and what becomes of the place.
    fn serve(&mut self, camera: usize, lent: [usize; 5]) -> Result<(), YuvError> {
        let place = self.places[camera].as_mut().unwrap();
        let (rows, stride, band) = place.band.take().unwrap();
        let [y, u, v, carried] = list(&place.parts);
        let parts = [band, y, u, v, carried];
        if parts
            .into_iter()
            .zip(lent)
            .any(|(p, len)| is_outside(p, len))
        {
            return Err(YuvError::PartsMismatch);
        }
        let mut copies = parts.map(|_| Vec::new());
        for ((copy, buffer), part) in copies.iter_mut().zip(&mut self.buffers).zip(parts) {
            *copy = cut(buffer, part).to_vec();
        }
        let [source, y, u, v, carried] = &mut copies;
        let (state, answer) = place.state.band(rows, source, stride, y, u, v, carried);
        answer?;
        let row = row_bytes(&state);
        let from = (state.options.window.top + place.state.done) as usize;
        for (to, from) in place.rows[from * row..]
            .chunks_mut(row)
            .zip(copies[0].chunks(stride as usize))
        {
            to.copy_from_slice(&from[..row]);
        }
        for ((copy, buffer), part) in copies.iter().zip(&mut self.buffers).zip(parts) {
            cut(buffer, part).copy_from_slice(copy);
        }
        place.state = state;
        if state.done >= state.frame.height {
            let place = self.places[camera].take().unwrap();
            self.as_one_frame(&place);
        }
        Ok(())
    }

    /// The planes of a finished frame are those of one frame call on its rows.
    fn as_one_frame(&mut self, place: &Place) {
        let (frame, options) = (place.state.frame, place.state.options);
        let stride = row_bytes(&place.state) as u32;
        let [mut y, mut u, mut v] =
            [place.parts.y, place.parts.u, place.parts.v].map(|part| vec![0; part.length]);
        rgbx_to_sharp_yuv_with(
            &frame,
            &options,
            &place.rows,
            stride,
            &mut y,
            &mut u,
            &mut v,
        )
        .unwrap();
        let (width, chroma) = (frame.width as usize, frame.width.div_ceil(2) as usize);
        for (i, (plane, part, stride, width)) in [
            (y, place.parts.y, frame.y_stride, width),
            (u, place.parts.u, frame.u_stride, chroma),
            (v, place.parts.v, frame.v_stride, chroma),
        ]
        .into_iter()
        .enumerate()
        {
            let left = cut(&mut self.buffers[1 + i], part).chunks(stride as usize);
            for (is, should) in left.zip(plane.chunks(stride as usize)) {
                assert_eq!(is[..width], should[..width]);
            }
        }
        self.finished += 1;
    }

    /// A step with this many bytes of each buffer lent.
    fn step_lent(&mut self, lent: [usize; 5]) -> Result<Option<u32>, DeskError> {
        let mut left = self.buffers.clone();
        let [source, y, u, v, carried] = &mut left;
        let answer = self.desk.step(
            &source[..lent[0]],
            &mut y[..lent[1]],
            &mut u[..lent[2]],
            &mut v[..lent[3]],
            &mut carried[..lent[4]],
        );
        let turns = (0..32).map(|asked| (self.first + asked) % 32);
        let waits = |camera: &usize| {
            let place = self.places[*camera].as_ref();
            place.is_some_and(|place| place.band.is_some())
        };
        let camera = turns.into_iter().find(waits);
        let expected = match camera {
            None => Ok(None),
            Some(camera) => {
                self.first = (camera + 1) % 32;
                let camera = camera as u32;
                match self.serve(camera as usize, lent) {
                    Ok(()) => Ok(Some(camera)),
                    Err(error) => Err(DeskError { camera, error }),
                }
            }
        };
        assert_eq!(answer, expected);
        assert_eq!(left, self.buffers);
        self.check();
        answer
    }

    fn step(&mut self) -> Result<Option<u32>, DeskError> {
        self.step_lent([ROOM; 5])
    }

    /// The next rows of a camera's frame, anywhere in the source.
    fn next_rows(&self, camera: u32, rows: u32, noise: &mut Noise) -> Band {
        let Some(Some(place)) = self.places.get(camera as usize) else {
            return (1, 3, BufferPart::new(0, 3));
        };
        let state = place.state;
        let rows = rows.min(state.frame.height - state.done);
        let stride = row_bytes(&state) + noise.below(3);
        let length = rows as usize * stride;
        let part = BufferPart::new(noise.below(ROOM - length), length);
        (rows, stride as u32, part)
    }
}

/// A small frame of any settings, with a window or without; its parts have their lengths, at this offset.
fn some_frame(noise: &mut Noise, offset: usize) -> (FrameDescription, FrameOptions, DeskParts) {
    let (width, height) = (1 + noise.below(5), 1 + noise.below(4));
    let sampling = [YuvChromaSubsampling::Yuv420, YuvChromaSubsampling::Yuv422][noise.below(2)];
    let frame = FrameDescription {
        width: width as u32,
        height: height as u32,
        channels: [YuvSourceChannels::Rgb, YuvSourceChannels::Bgra][noise.below(2)],
        sampling,
        range: [YuvRange::Limited, YuvRange::Full][noise.below(2)],
        matrix: [
            YuvStandardMatrix::Bt709,
            YuvStandardMatrix::Fcc,
            YuvStandardMatrix::Custom(0.25, 0.0625),
        ][noise.below(3)],
        transfer: [SharpYuvGammaTransfer::Srgb, SharpYuvGammaTransfer::Gamma2p8][noise.below(2)],
        y_stride: (width + noise.below(3)) as u32,
        u_stride: (width.div_ceil(2) + noise.below(3)) as u32,
        v_stride: (width.div_ceil(2) + noise.below(3)) as u32,
    };
    let mut options = FrameOptions::of(&frame);
    options.rounding = [TableRounding::Truncated, TableRounding::Nearest][noise.below(2)];
    if noise.below(2) == 0 {
        let (left, top) = (noise.below(3) as u32, noise.below(3) as u32);
        let more = noise.below(3) as u32;
        options.window = Window::new(
            left,
            top,
            left + frame.width + more,
            top + frame.height + more,
        );
    }
    let rows = match sampling {
        YuvChromaSubsampling::Yuv420 => height.div_ceil(2),
        YuvChromaSubsampling::Yuv422 => height,
    };
    let parts = DeskParts {
        y: BufferPart::new(offset, frame.y_stride as usize * height),
        u: BufferPart::new(offset, frame.u_stride as usize * rows),
        v: BufferPart::new(offset, frame.v_stride as usize * rows),
        carried: BufferPart::new(offset, 3 * width),
    };
    (frame, options, parts)
}

/// A frame for each camera, with as many bytes of each buffer.
fn all_open(noise: &mut Noise) -> Scene {
    let mut scene = Scene::new(noise);
    for camera in 0..CAMERAS {
        let (mut frame, _, mut parts) = some_frame(noise, camera as usize * 64);
        frame.height = 4;
        let rows = match frame.sampling {
            YuvChromaSubsampling::Yuv420 => 2,
            YuvChromaSubsampling::Yuv422 => 4,
        };
        parts.y.length = frame.y_stride as usize * 4;
        parts.u.length = frame.u_stride as usize * rows;
        parts.v.length = frame.v_stride as usize * rows;
        let options = FrameOptions::of(&frame);
        assert_eq!(scene.open(camera, &frame, &options, &parts), Ok(()));
    }
    scene
}

#[test]
fn openings_are_refused_in_order() {
    let noise = &mut Noise(1);
    for camera in 0..CAMERAS {
        let mut scene = Scene::new(noise);
        let (frame, options, parts) = some_frame(noise, 0);
        assert_eq!(scene.open(camera, &frame, &options, &parts), Ok(()));
        for (right, number) in [21, 23, 18, 2, 3, 4, 14, 0].into_iter().enumerate() {
            let (mut frame, mut options, mut parts) = some_frame(noise, 200);
            if right < 7 {
                options.window.left = 20_000;
            }
            if right < 6 {
                frame.matrix = YuvStandardMatrix::Custom(0.25, f32::NAN);
            }
            if right < 5 {
                frame.height = 16_385;
            }
            if right < 4 {
                frame.width = 0;
            }
            if right < 3 {
                parts.carried = BufferPart::new(usize::MAX, 2);
            }
            let at = [32, camera, (camera + 1 + noise.below(31) as u32) % 32][right.min(2)];
            let answer = scene.open(at, &frame, &options, &parts);
            assert_eq!(answer.err().map_or(0, |error| error.number()), number);
        }
    }
}

#[test]
fn parts_that_do_not_fit() {
    let noise = &mut Noise(2);
    for buffer in 0..4 {
        for (offset, length, number) in [
            (0, 100, 0),
            (200, 100, 0),
            (100, 100, 18),
            (99, 2, 18),
            (199, 1, 18),
            (150, 0, 0),
            (ROOM, 0, 0),
            (ROOM + 1, 0, 18),
            (ROOM, 1, 18),
            (usize::MAX, 2, 18),
            (1, usize::MAX, 18),
        ] {
            let mut scene = Scene::new(noise);
            let (frame, options, mut parts) = some_frame(noise, 0);
            let part = BufferPart::new(100, 100);
            (parts.y, parts.u, parts.v, parts.carried) = (part, part, part, part);
            assert_eq!(scene.open(31, &frame, &options, &parts), Ok(()));
            let part = BufferPart::new(300, 100);
            (parts.y, parts.u, parts.v, parts.carried) = (part, part, part, part);
            let part = BufferPart::new(offset, length);
            match buffer {
                0 => parts.y = part,
                1 => parts.u = part,
                2 => parts.v = part,
                _ => parts.carried = part,
            }
            let answer = scene.open(0, &frame, &options, &parts);
            assert_eq!(answer.err().map_or(0, |error| error.number()), number);
        }
    }
}

#[test]
fn offers_and_bands_are_refused() {
    let noise = &mut Noise(3);
    let outside = (1, 1, BufferPart::new(ROOM, 1));
    for camera in 0..CAMERAS {
        let mut scene = Scene::new(noise);
        assert_eq!(scene.offer(camera, outside), Err(YuvError::CameraMismatch));
        let (mut frame, _, mut parts) = some_frame(noise, 0);
        frame.height = 2;
        parts.y.length = 2 * frame.y_stride as usize;
        let rows = [1, 2][usize::from(frame.sampling == YuvChromaSubsampling::Yuv422)];
        parts.u.length = rows * frame.u_stride as usize;
        parts.v.length = rows * frame.v_stride as usize;
        let options = FrameOptions::of(&frame);
        assert_eq!(scene.open(camera, &frame, &options, &parts), Ok(()));
        assert_eq!(
            scene.offer(camera + 32, outside),
            Err(YuvError::CameraMismatch)
        );
        assert_eq!(scene.offer(camera, outside), Err(YuvError::PartsMismatch));
        let (rows, stride, part) = scene.next_rows(camera, 1, noise);
        // 5, and 12 where a byte is left over behind the row
        for (band, number) in [
            ((0, stride, part), 5),
            ((3, stride, part), 5),
            ((rows, stride, BufferPart::default()), 6),
            ((rows, 1, part), 7),
            ((rows, stride, BufferPart::new(0, part.length + 1)), 12),
        ] {
            assert_eq!(scene.offer(camera, band), Ok(()));
            assert_eq!(
                scene.offer(camera, outside),
                Err(YuvError::BandStillWaiting)
            );
            let refused = scene.step().unwrap_err();
            assert_eq!((refused.camera, refused.error.number()), (camera, number));
            assert_eq!(YuvError::from(refused), refused.error);
            let text = format!("camera {camera}: refused {number}: ");
            assert!(refused.to_string().starts_with(&text));
            assert_eq!(scene.step(), Ok(None));
        }
        for buffer in 0..5 {
            assert_eq!(scene.offer(camera, (rows, stride, part)), Ok(()));
            let mut lent = [ROOM; 5];
            lent[buffer] = [part, parts.y, parts.u, parts.v, parts.carried][buffer].length - 1;
            lent[0] = lent[0].max(if buffer == 0 { 0 } else { ROOM });
            let error = YuvError::PartsMismatch;
            assert_eq!(scene.step_lent(lent), Err(DeskError { camera, error }));
        }
        for _ in 0..2 {
            let band = scene.next_rows(camera, 1, noise);
            assert_eq!(scene.offer(camera, band), Ok(()));
            assert_eq!(scene.step(), Ok(Some(camera)));
        }
        assert_eq!(scene.offer(camera, outside), Err(YuvError::CameraMismatch));
        assert_eq!(scene.open(camera, &frame, &options, &parts), Ok(()));
        assert_eq!(scene.finished, 1);
    }
    for (error, number) in [
        (YuvError::CameraMismatch, 21),
        (YuvError::BandStillWaiting, 22),
        (YuvError::CameraInUse, 23),
    ] {
        assert_eq!((error.number(), error.size()), (number, None));
        assert!(
            error
                .to_string()
                .starts_with(&format!("refused {number}: "))
        );
    }
}

#[test]
fn the_round() {
    let noise = &mut Noise(4);
    for last in 0..CAMERAS {
        let mut scene = all_open(noise);
        for camera in (0..CAMERAS).rev() {
            let band = scene.next_rows(camera, 1, noise);
            assert_eq!(scene.offer(camera, band), Ok(()));
        }
        for camera in 0..CAMERAS {
            assert_eq!(scene.step(), Ok(Some(camera)));
        }
        assert_eq!(scene.step(), Ok(None));
        let band = scene.next_rows(last, 1, noise);
        assert_eq!(scene.offer(last, band), Ok(()));
        assert_eq!(scene.step(), Ok(Some(last)));
        // The one just served waits for all others, who offer again as soon as they may: 32 steps.
        for camera in 0..CAMERAS {
            let band = scene.next_rows(camera, 1, noise);
            assert_eq!(scene.offer(camera, band), Ok(()));
        }
        for asked in 1..=CAMERAS {
            let camera = (last + asked) % CAMERAS;
            assert_eq!(scene.step(), Ok(Some(camera)));
            if camera != last {
                let band = scene.next_rows(camera, 1, noise);
                assert_eq!(scene.offer(camera, band), Ok(()));
            }
        }
    }
}

#[test]
fn histories() {
    let noise = &mut Noise(5);
    let (mut finished, mut refused, mut nobody) = (0, 0, 0);
    for history in 0..600 {
        let mut scene = Scene::new(noise);
        let cameras = if history % 4 == 0 { 34 } else { 4 };
        for _ in 0..60 {
            let camera = noise.below(cameras) as u32;
            match noise.below(16) {
                0..4 => {
                    let offset = noise.below(32) * 64 + noise.below(2);
                    let (frame, options, mut parts) = some_frame(noise, offset);
                    if noise.below(8) == 0 {
                        parts.u.length += 1;
                    }
                    let _ = scene.open(camera, &frame, &options, &parts);
                }
                4..9 => {
                    let rows = 1 + noise.below(3) as u32;
                    let (mut rows, mut stride, mut part) = scene.next_rows(camera, rows, noise);
                    match noise.below(16) {
                        0 => rows += 1,
                        1 => stride -= 1,
                        2 => part.length += 1,
                        3 => part.offset = ROOM - noise.below(8),
                        _ => {}
                    }
                    let _ = scene.offer(camera, (rows, stride, part));
                }
                _ => {
                    let mut lent = [ROOM; 5];
                    if noise.below(16) == 0 {
                        lent[noise.below(5)] = noise.below(ROOM);
                    }
                    match scene.step_lent(lent) {
                        Ok(Some(_)) => {}
                        Ok(None) => nobody += 1,
                        Err(_) => refused += 1,
                    }
                }
            }
        }
        finished += scene.finished;
    }
    assert!(finished > 500 && refused > 500 && nobody > 500);
}

/// Whatever stands in the desk, each call is answered.
#[test]
fn desks_that_no_call_left() {
    let noise = &mut Noise(6);
    let mut answers = [0; 24];
    for round in 0..600 {
        let mut desk = Desk::default();
        let scale = [2, 20, 20_000, usize::MAX][round % 4];
        desk.numbers.fill_with(|| noise.below(scale) as u32);
        desk.customs
            .fill_with(|| f32::from_bits((noise.below(1 << 31) as u32) << 1));
        // mostly inside the buffers, so that the band call is asked
        desk.parts
            .fill_with(|| noise.below(if round % 16 < 12 { 9 } else { scale }) as u64);
        for camera in 0..32 {
            desk.numbers[19 * camera] = noise.below(4) as u32;
        }
        let mut buffers: Buffers = [(); 5].map(|()| vec![7; 300]);
        for _ in 0..40 {
            let (frame, options, parts) = some_frame(noise, round % 200);
            let lengths = DeskLengths {
                y: 300,
                u: 300,
                v: 300,
                carried: 300,
            };
            let camera = noise.below(34) as u32;
            let opened = desk.open(camera, &frame, &options, &parts, &lengths);
            let part = BufferPart::new(noise.below(300), noise.below(30));
            let offered = desk.offer(camera, 1, noise.below(30) as u32, part, 300);
            let before = buffers.clone();
            let first = desk.numbers[608] % 32;
            let [source, y, u, v, carried] = &mut buffers;
            let served = desk.step(source, y, u, v, carried);
            match served {
                Ok(None) => assert_eq!(desk.numbers[608] % 32, first),
                Ok(Some(camera)) => assert_eq!(desk.numbers[608], (camera + 1) % 32),
                Err(refused) => assert_eq!(desk.numbers[608], (refused.camera + 1) % 32),
            }
            if !matches!(served, Ok(Some(_))) {
                assert_eq!(before, buffers);
            }
            for answer in [opened, offered, served.map(drop).map_err(YuvError::from)] {
                answers[answer.err().map_or(0, |error| error.number()) as usize] += 1;
            }
        }
    }
    for number in [0, 2, 3, 4, 5, 6, 14, 18, 21, 22, 23] {
        assert!(answers[number] > 0, "{number}");
    }
}
