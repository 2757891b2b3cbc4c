//! Random histories of the front desk. The model follows them, so that what is asked next fits the desk: cameras at
//! rates of their own, most calls good, some with faults.

use crate::converter::Opening;
use crate::desk::{Ask, Five, History};
use crate::random::{self, Random};
use crate::request::FrameRequest;
use crate::stored::frame_numbers;
use model::Window;
use model::desk::{Buffers, CUSTOMS, DeskNumbers, FIRST, NUMBERS, OpenFrame, PARTS};

const ABOVE_31: [u32; 8] = [32, 33, 63, 64, 255, 256, 1 << 31, u32::MAX];

pub struct World<'r> {
    pub random: &'r mut Random,
    pub desk: DeskNumbers,
    /// As long as the history's; what stands in them decides nothing.
    buffers: Five,
    pub asks: Vec<Ask>,
    /// Each camera's: how likely it is to deliver.
    rates: [u64; 32],
    side: u32,
    /// One call in so many has a fault.
    faults: u64,
}

impl History {
    pub fn random(random: &mut Random) -> History {
        let kind = random.below(12);
        let mut world = match kind {
            0..5 => {
                let side = random.pick(&[1, 2, 3, 5, 9]);
                let length = random.from(40, 260) as usize;
                World::new(random, side, length, 4)
            }
            5..8 => World::new(random, 4, 700, 6),
            8 => World::new(random, 3, 1_400, 40),
            9 => World::new(random, 6, 300, 1_000_000),
            _ => World::new(random, 4, 300, 5),
        };
        match kind {
            8 => {
                let steps = world.random.from(20, 70);
                world.full(steps);
            }
            10 | 11 => {
                let calls = world.random.from(4, 40);
                world.some(calls);
                world.forge();
                return world.forged();
            }
            _ => {
                let calls = world.random.from(5, 120);
                world.some(calls);
            }
        }
        world.history(DeskNumbers::FRESH)
    }
}

impl<'r> World<'r> {
    /// Buffers of about this length.
    pub fn new(random: &'r mut Random, side: u32, length: usize, faults: u64) -> World<'r> {
        let mut around = |length: usize| vec![0; length + random.below(9) as usize];
        let buffers = [
            around(2 * length),
            around(length),
            around(length),
            around(length),
            around(length),
        ];
        World {
            rates: [(); 32].map(|()| random.pick(&[1, 1, 2, 5, 20])),
            random,
            desk: DeskNumbers::FRESH,
            buffers,
            asks: Vec::new(),
            side,
            faults,
        }
    }

    pub fn length(&self, buffer: usize) -> u64 {
        self.buffers[buffer].len() as u64
    }

    /// Buffers of random bytes, and what was asked since the desk was this one.
    pub fn history(self, desk: DeskNumbers) -> History {
        let random = self.random;
        History {
            desk,
            buffers: (self.buffers).map(|buffer| random.bytes(buffer.len())),
            asks: self.asks,
        }
    }

    /// A desk that no call made, and some calls on it.
    fn forged(mut self) -> History {
        let desk = self.desk;
        self.asks.clear();
        let calls = self.random.from(1, 40);
        self.some(calls);
        self.history(desk)
    }

    pub fn open_frame(&self, camera: u32) -> Option<OpenFrame> {
        self.desk.desk().cameras[camera as usize]
    }

    pub fn open_cameras(&self) -> Vec<(u32, OpenFrame)> {
        let cameras = self.desk.desk().cameras;
        let numbered = (0..).zip(cameras);
        numbered
            .filter_map(|(camera, open)| Some((camera, open?)))
            .collect()
    }

    /// The model makes the call.
    pub fn ask(&mut self, ask: Ask) {
        match &ask {
            Ask::Open(o) => {
                (self.desk).open(o.camera, &o.described, o.custom, &o.parts, o.lengths);
            }
            Ask::Offer {
                camera,
                band,
                place,
            } => {
                self.desk.offer(*camera, *band, *place);
            }
            Ask::Step { lent } => {
                let [source, y, u, v, carried] = &mut self.buffers;
                self.desk.step(Buffers {
                    source: &source[..lent[0]],
                    y: &mut y[..lent[1]],
                    u: &mut u[..lent[2]],
                    v: &mut v[..lent[3]],
                    carried: &mut carried[..lent[4]],
                });
            }
            Ask::Deliver { .. } => {}
        }
        self.asks.push(ask);
    }

    fn some(&mut self, calls: u32) {
        for _ in 0..calls {
            match self.random.below(20) {
                0..3 => self.open_somewhere(),
                3..12 => self.offer_somewhere(),
                _ => self.step(),
            }
        }
    }

    /// All 32, each of which delivers again as soon as it was served, for the most part.
    pub fn full(&mut self, steps: u32) {
        for camera in 0..32 {
            self.open_good(camera);
        }
        let mut order: Vec<u32> = (0..32).collect();
        for i in (1..32).rev() {
            order.swap(i, self.random.below(i as u64 + 1) as usize);
        }
        for camera in order {
            self.offer_good(camera);
        }
        for _ in 0..steps {
            let waiting = |(camera, open): &(u32, OpenFrame)| open.band.map(|_| *camera);
            let before: Vec<u32> = self.open_cameras().iter().filter_map(waiting).collect();
            self.step();
            let after: Vec<u32> = self.open_cameras().iter().filter_map(waiting).collect();
            for camera in before {
                if !after.contains(&camera) && !self.random.one_in(6) {
                    if self.open_frame(camera).is_none() {
                        self.open_good(camera);
                    }
                    self.offer_good(camera);
                }
            }
            if self.random.one_in(30) {
                self.offer_somewhere();
            }
        }
    }

    // Openings.

    fn open_somewhere(&mut self) {
        let free: Vec<u32> = (0..32).filter(|c| self.open_frame(*c).is_none()).collect();
        let camera = match free.is_empty() {
            true => self.random.below(32) as u32,
            false => self.random.pick(&free),
        };
        let camera = match self.random.below(4) {
            0 if free.contains(&0) => 0,
            1 if free.contains(&31) => 31,
            _ => camera,
        };
        if !self.random.one_in(self.faults) {
            return self.open_good(camera);
        }
        let Some(mut opening) = self.opening(camera) else {
            return self.open_good(camera);
        };
        for _ in 0..self.random.from(1, 2) {
            self.opening_fault(&mut opening);
        }
        self.ask(Ask::Open(opening));
    }

    /// Where there is room for it.
    pub fn open_good(&mut self, camera: u32) {
        if let Some(opening) = self.opening(camera) {
            self.ask(Ask::Open(opening));
        }
    }

    fn frame(&mut self) -> FrameRequest {
        let random = &mut *self.random;
        let mut request = random::small_frame(random, self.side);
        let f = &request.frame;
        let mut some = |side: u32| match random.below(3) {
            0 => (0, side),
            _ => {
                let before = random.from(0, 3);
                (before, before + side + random.from(0, 3))
            }
        };
        let (left, source_width) = some(f.w);
        let (top, source_height) = some(f.h);
        request.frame.window = match random.one_in(2) {
            true => Window::whole(f.w, f.h),
            false => Window {
                left,
                top,
                source_width,
                source_height,
            },
        };
        request
    }

    /// One that is accepted, of a camera whose number is free. None: no room.
    pub fn opening(&mut self, camera: u32) -> Option<Opening> {
        let request = self.frame();
        self.opening_of(camera, &request)
    }

    /// The same of this frame.
    pub fn opening_of(&mut self, camera: u32, request: &FrameRequest) -> Option<Opening> {
        let surplus = self.random.pick(&[0, 0, 1, 5]);
        let carried = 3 * u64::from(request.frame.w) + surplus;
        let [_, y, u, v] = request.lent.each_ref().map(|buffer| buffer.len() as u64);
        let mut parts = [0; 8];
        for (k, length) in [y, u, v, carried].into_iter().enumerate() {
            let taken = self.taken(k);
            let offset = self.room(k + 1, length, taken)?;
            parts[2 * k..][..2].copy_from_slice(&[offset, length]);
        }
        let (numbers, custom) = frame_numbers(&request.frame);
        let mut described = numbers[1..].to_vec();
        let f = &request.frame;
        if f.window == Window::whole(f.w, f.h) && self.random.one_in(2) {
            described.truncate(11);
            if described[10] == 0 && self.random.one_in(2) {
                described.truncate(10);
            }
        }
        // What is not looked at is anything.
        let other = self.random.pick(&[0.0, 0.25, f32::NAN, -1.0]);
        Some(Opening {
            camera,
            described,
            custom: custom.unwrap_or([other; 2]),
            parts,
            lengths: [1, 2, 3, 4].map(|b| self.length(b)),
        })
    }

    /// The parts of open frames in Y, U, V or carried rows.
    fn taken(&self, k: usize) -> Vec<[u64; 2]> {
        let part = |(_, open): (u32, OpenFrame)| [open.parts[k].offset, open.parts[k].length];
        self.open_cameras().into_iter().map(part).collect()
    }

    /// Where so many bytes do not overlap these parts: next to one of them, or apart.
    fn room(&mut self, buffer: usize, length: u64, taken: Vec<[u64; 2]>) -> Option<u64> {
        let whole = self.length(buffer);
        let mut starts: Vec<u64> = vec![0];
        let anywhere = |random: &mut Random| random.below(whole + 1);
        for [offset, length] in &taken {
            starts.push(offset.saturating_add(*length));
        }
        for _ in 0..2 {
            starts.push(anywhere(self.random));
        }
        starts.push(whole.saturating_sub(length));
        for [offset, _] in &taken {
            starts.push(offset.saturating_sub(length));
        }
        starts.retain(|start| {
            let end = u128::from(*start) + u128::from(length);
            let apart = |[offset, others]: &[u64; 2]| {
                let others_end = u128::from(*offset) + u128::from(*others);
                end <= u128::from(*offset) || others_end <= u128::from(*start)
            };
            end <= u128::from(whole) && taken.iter().all(apart)
        });
        match starts.is_empty() {
            true => None,
            false => Some(self.random.pick(&starts)),
        }
    }

    fn opening_fault(&mut self, o: &mut Opening) {
        let open = self.open_cameras();
        let k = self.random.below(4) as usize;
        let whole = self.length(k + 1);
        let [offset, length] = [o.parts[2 * k], o.parts[2 * k + 1]];
        match self.random.below(16) {
            0 => o.camera = self.random.pick(&ABOVE_31),
            1 => {
                o.camera = o
                    .camera
                    .wrapping_add(32 * self.random.pick(&[1, 2, 8, 1 << 20]))
            }
            2 | 3 if !open.is_empty() => o.camera = self.random.pick(&open).0,
            4..7 if !open.is_empty() => {
                let other = self.random.pick(&open).1.parts[k];
                let last = other.offset.wrapping_add(other.length).wrapping_sub(1);
                let before = other.offset.wrapping_add(1).wrapping_sub(length);
                let to = self.random.pick(&[other.offset, last, before]);
                o.parts[2 * k] = to;
                match self.random.below(6) {
                    0 => o.parts[2 * k + 1] = other.length,
                    1 => o.parts[2 * k..][..2].copy_from_slice(&[0, whole]),
                    2 => o.parts[2 * k..][..2].copy_from_slice(&[last, 0]),
                    _ => {}
                }
            }
            7 | 8 => {
                let inside = self.random.below(whole + 1);
                let back = self.random.from(1, 9).into();
                let part = match self.random.below(9) {
                    0 => [(whole + 1).saturating_sub(length), length],
                    1 => [whole, 1],
                    2 => [whole + 1, 0],
                    3 => [u64::MAX - self.random.below(3), self.random.below(3)],
                    4 => [0u64.wrapping_sub(back), back + inside],
                    5 => [offset, 0u64.wrapping_sub(offset)],
                    6 => [offset.wrapping_add(1 << 32), length],
                    7 => [offset, length.wrapping_add(1 << 32)],
                    _ => [1 << 63, 1 << 63],
                };
                o.parts[2 * k..][..2].copy_from_slice(&part);
            }
            9 => {
                let at = self.random.below(whole + 1);
                let at = self.random.pick(&[whole, at, at, offset]);
                o.parts[2 * k..][..2].copy_from_slice(&[at, 0]);
            }
            10 => {
                let end = offset.saturating_add(length);
                let fewer = end.saturating_sub(1);
                o.lengths[k] = self.random.pick(&[fewer, end, 0, u64::MAX]);
            }
            11 => {
                // Behind the buffer's end as it is, told to be longer.
                o.lengths[k] = u64::MAX - self.random.below(2);
                o.parts[2 * k] =
                    self.random
                        .pick(&[whole, whole + 1, (u64::MAX - 1).saturating_sub(length)]);
            }
            12 | 13 => self.description_fault(o),
            14 => {
                let more = self.random.pick(&[1, 3, length]);
                let fewer = length.saturating_sub(self.random.pick(&[1, 3, length]));
                o.parts[2 * k + 1] = self.random.pick(&[fewer, fewer, length.wrapping_add(more)]);
            }
            _ => {
                // A stride: the opening does not ask it.
                let at = 7 + self.random.below(3) as usize;
                if let Some(stride) = o.described.get_mut(at) {
                    let row = *stride;
                    *stride = self.random.pick(&[
                        0,
                        row.saturating_sub(1),
                        row.wrapping_add(1),
                        u32::MAX,
                    ]);
                }
            }
        }
    }

    fn description_fault(&mut self, o: &mut Opening) {
        let random = &mut *self.random;
        let n = &mut o.described;
        match random.below(9) {
            0 => n.truncate(random.below(15) as usize),
            1 => n.push(random.from(0, 2)),
            2 | 3 => {
                let places = [2, 3, 4, 5, 6, 10].map(|at| at.min(n.len().saturating_sub(1)));
                if let Some(code) = n.get_mut(random.pick(&places)) {
                    let wraps = code.wrapping_add(random.pick(&[256, 65_536, 1 << 31]));
                    *code = random.pick(&[7, 255, u32::MAX, wraps]);
                }
            }
            4 => {
                let at = random.below(2) as usize;
                if let Some(side) = n.get_mut(at) {
                    *side = random.pick(&[0, 0, 16_385, u32::MAX]);
                }
            }
            5 | 6 => {
                let (kr, kb) = random::refused_pair(random);
                if let Some(matrix) = n.get_mut(5) {
                    (*matrix, o.custom) = (6, [kr, kb]);
                }
            }
            _ => {
                let at = 11 + random.below(4) as usize;
                if let Some(number) = n.get_mut(at) {
                    *number = random.pick(&[0, number.wrapping_add(9), 16_385, u32::MAX]);
                }
            }
        }
    }

    // Offers.

    fn offer_somewhere(&mut self) {
        let open = self.open_cameras();
        if open.is_empty() {
            return self.open_somewhere();
        }
        let idle: Vec<u32> = (open.iter())
            .filter(|(_, open)| open.band.is_none())
            .map(|(camera, _)| *camera)
            .collect();
        if self.random.one_in(self.faults) || idle.is_empty() && self.random.one_in(3) {
            return self.offer_with_fault(&open);
        }
        if idle.is_empty() {
            return self.step();
        }
        let all: u64 = idle.iter().map(|c| self.rates[*c as usize]).sum();
        let mut at = self.random.below(all);
        for camera in idle {
            let rate = self.rates[camera as usize];
            if at < rate {
                return self.offer_good(camera);
            }
            at -= rate;
        }
    }

    pub fn offer_good(&mut self, camera: u32) {
        let Some(open) = self.open_frame(camera) else {
            return;
        };
        let (band, length) = self.band(&open);
        let bytes = random::source_bytes(self.random, length as usize);
        self.offer_bytes(camera, band, bytes);
    }

    /// These bytes as a band, delivered before. Nothing where there is no room for them.
    pub fn offer_bytes(&mut self, camera: u32, band: [u32; 2], bytes: Vec<u8>) {
        let length = bytes.len() as u64;
        if let Some(offset) = self.source_room(length) {
            self.ask(Ask::Deliver {
                offset: offset as usize,
                bytes,
            });
            self.ask(Ask::Offer {
                camera,
                band,
                place: [offset, length, self.length(0)],
            });
        }
    }

    /// Mostly beside the bands that wait.
    fn source_room(&mut self, length: u64) -> Option<u64> {
        let part = |(_, open): (u32, OpenFrame)| open.band.map(|band| band.part);
        let waiting = self.open_cameras().into_iter().filter_map(part);
        let taken = waiting.map(|part| [part.offset, part.length]).collect();
        let whole = self.length(0);
        if length > whole {
            return None;
        }
        let anywhere = self.random.below(whole - length + 1);
        Some(self.room(0, length, taken).unwrap_or(anywhere))
    }

    /// Rows and stride of a band that is accepted, where the frame has one, and its length.
    pub fn band(&mut self, open: &OpenFrame) -> ([u32; 2], u64) {
        let s = &open.state;
        let row = (u64::from(s.window.source_width) * s.settings.channels.bytes()).min(200) as u32;
        let remain = s.h.saturating_sub(s.done).clamp(1, 12);
        let most = match self.random.below(4) {
            0 => remain,
            1 => remain.min(3),
            _ => 1,
        };
        let rows = self.random.from(1, most);
        let stride = row + self.random.pick(&[0, 0, 1, 4]);
        ([rows, stride], u64::from(rows) * u64::from(stride))
    }

    fn offer_with_fault(&mut self, open: &[(u32, OpenFrame)]) {
        let (mut camera, frame) = self.random.pick(open);
        let ([mut rows, mut stride], mut length) = self.band(&frame);
        let whole = self.length(0);
        let mut offset = self.source_room(length).unwrap_or(0);
        let mut source = whole;
        for _ in 0..self.random.from(1, 2) {
            match self.random.below(14) {
                0 => camera = self.random.pick(&ABOVE_31),
                1 => camera = camera.wrapping_add(32),
                2 => camera = self.random.below(32) as u32,
                3 | 4 => {
                    let waiting: Vec<u32> = (open.iter())
                        .filter(|(_, open)| open.band.is_some())
                        .map(|(camera, _)| *camera)
                        .collect();
                    if !waiting.is_empty() {
                        camera = self.random.pick(&waiting);
                    }
                }
                5 | 6 => {
                    let inside = self.random.below(whole + 1);
                    [offset, length] = match self.random.below(7) {
                        0 => [(whole + 1).saturating_sub(length), length],
                        1 => [whole + 1, 0],
                        2 => [u64::MAX, 1],
                        3 => [u64::MAX - 4, 5 + inside],
                        4 => [offset.wrapping_add(1 << 32), length],
                        5 => [whole, 0],
                        _ => [1 << 63, 1 << 63],
                    };
                }
                7 => {
                    let end = offset.saturating_add(length);
                    source = self.random.pick(&[end, end.saturating_sub(1), u64::MAX]);
                }
                8 => {
                    // Behind the source's end as it is, told to be longer.
                    (offset, source) = (whole - whole.min(length) + 1, u64::MAX);
                }
                9 => {
                    rows = self.random.pick(&[
                        0,
                        rows.wrapping_add(1),
                        rows.wrapping_add(20),
                        u32::MAX,
                    ])
                }
                10 => stride = self.random.pick(&[0, stride.saturating_sub(1), u32::MAX]),
                11 => length = self.random.pick(&[0, length.saturating_sub(1), length / 2]),
                12 => length = length.saturating_add(1).min(whole),
                _ => {
                    // The bytes of another band that waits.
                    let bands = open.iter().filter_map(|(_, open)| open.band);
                    if let Some(band) = bands.last() {
                        offset = band.part.offset;
                    }
                }
            }
        }
        self.ask(Ask::Offer {
            camera,
            band: [rows, stride],
            place: [offset, length, source],
        });
    }

    // Steps.

    pub fn step(&mut self) {
        let mut lent = self.buffers.each_ref().map(Vec::len);
        let next = {
            let desk = self.desk.desk();
            let mut round =
                (0..32).map(|turn| desk.cameras[((desk.first % 32 + turn) % 32) as usize]);
            round.find_map(|open| open.filter(|open| open.band.is_some()))
        };
        if let Some(open) = next.filter(|_| self.random.one_in(2 * self.faults)) {
            let b = self.random.below(5) as usize;
            let band = open.band.map(|band| band.part);
            let part = [band, open.parts.get(b.wrapping_sub(1)).copied()];
            if let Some(part) = part[usize::from(b > 0)] {
                let end = part.offset.saturating_add(part.length).min(self.length(b));
                let fewer = end.saturating_sub(1);
                let any = self.random.below(self.length(b) + 1);
                lent[b] = self.random.pick(&[end, fewer, fewer, 0, any]) as usize;
            }
        }
        self.ask(Ask::Step { lent });
    }

    // Desks that no call made.

    fn forge(&mut self) {
        for _ in 0..self.random.from(1, 5) {
            let open = self.open_cameras();
            let [camera, other] = [(); 2].map(|()| match &open[..] {
                [] => self.random.below(32) as usize,
                open => self.random.pick(open).0 as usize,
            });
            let DeskNumbers {
                numbers,
                customs,
                parts,
            } = &mut self.desk;
            let random = &mut *self.random;
            let place = &mut numbers[NUMBERS * camera..][..NUMBERS];
            let its_parts = &mut parts[PARTS * camera..][..PARTS];
            let its_customs = &mut customs[CUSTOMS * camera..][..CUSTOMS];
            let b = random.below(5) as usize;
            let whole = self.buffers[b].len() as u64;
            match random.below(17) {
                0 | 1 => {
                    let any = random.next() as u32;
                    numbers[FIRST] = random.pick(&[31, 32, 33, 63, 64, 1 << 31, u32::MAX, any]);
                }
                2 | 3 => place[0] = random.pick(&[0, 1, 2, 3, 4, 255, 257, 258, u32::MAX]),
                4 | 5 => {
                    let at = 4 + random.pick(&[2, 3, 4, 5, 6, 10]);
                    let wraps = place[at].wrapping_add(random.pick(&[256, 65_536, 1 << 31]));
                    place[at] = random.pick(&[7, 255, u32::MAX, wraps, wraps]);
                }
                6 => {
                    let h = place[5];
                    let before = h.saturating_sub(1);
                    place[1] = random.pick(&[before, before, h, h.saturating_add(1), u32::MAX]);
                }
                7 => {
                    // A band that waits, of any rows and stride.
                    place[0] = 2;
                    place[2] = random.pick(&[0, 1, 2, u32::MAX]);
                    place[3] = random.pick(&[0, 3, 12, 16, u32::MAX]);
                    its_parts[..2].copy_from_slice(&[random.below(9), random.below(40)]);
                }
                8 | 9 => {
                    // The parts of another frame, or of all of them one that overlaps it.
                    let others: [u64; PARTS] = *parts[PARTS * other..].first_chunk().expect("ten");
                    let its_parts = &mut parts[PARTS * camera..][..PARTS];
                    match random.one_in(2) {
                        true => its_parts[2..].copy_from_slice(&others[2..]),
                        false => its_parts[2 * b] = others[2 * b],
                    }
                }
                10 => {
                    let offset = random.pick(&[whole, whole + 1, u64::MAX, 1 << 63]);
                    its_parts[2 * b] = offset;
                }
                11 => its_parts[2 * b + 1] = random.pick(&[0, 1, whole, u64::MAX]),
                12 => {
                    let k = random.pick(&[0.25, 0.125, 3.0, f32::NAN, f32::INFINITY, -0.0]);
                    its_customs[random.below(2) as usize] = k;
                }
                13 => {
                    place[9] = 6;
                    let (kr, kb) = match random.one_in(2) {
                        true => random::refused_pair(random),
                        false => random::accepted_pair(random),
                    };
                    its_customs.copy_from_slice(&[kr, kb]);
                }
                14 => {
                    let at = random.pick(&[4, 5, 11, 12, 13, 15, 16, 17, 18]);
                    place[at] = random.pick(&[0, 1, 2, 16_385, u32::MAX]);
                }
                15 => {
                    let any: Vec<u32> = (0..NUMBERS).map(|_| random.next() as u32).collect();
                    place.copy_from_slice(&any);
                    place[0] = random.pick(&[0, 1, 2, 2, 3]);
                    its_parts.fill_with(|| random.below(300));
                }
                _ => {
                    // A free place with numbers left in it.
                    let free = (camera + 1) % 32;
                    if !matches!(numbers[NUMBERS * free], 1 | 2) {
                        numbers[NUMBERS * free + 1..][..18].fill(random.next() as u32);
                        parts[PARTS * free..][..PARTS].fill(random.next());
                        customs[CUSTOMS * free..][..CUSTOMS].fill(0.5);
                    }
                }
            }
        }
    }
}
