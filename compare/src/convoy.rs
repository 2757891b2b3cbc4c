//! Convoys, RULES 15.1 and on: each is held to single frame calls in order, of every converter, on the parts copied
//! out of the buffers and put back; every byte of all four buffers is compared. Whether it is one at all, 18, is
//! asked once more and apart from the model: there byte by byte, here by the ends of the parts.

use crate::check::{Case, Converters, checked, equal_answers, equal_lent, frame_of, smallest};
use crate::conditions;
use crate::converter::Converter;
use crate::random::{self, Random};
use crate::request::{FrameRequest, Lent, hex};
use crate::shift::{around, equal};
use crate::stored::frame_numbers;
use model::convoy::{CUSTOMS, NUMBERS, Numbers, PARTS};
use model::settings::{channels_of, matrix_of, range_of, rounding_of, sampling_of, transfer_of};
use model::{Answer, Frame, Refusal, Settings, Window, YuvStandardMatrix};
use std::collections::BTreeMap;

/// The numbers of RULES 10.9, and the bytes lent.
#[derive(Clone)]
pub struct Convoy {
    pub count: u64,
    pub numbers: Vec<u32>,
    pub customs: Vec<f32>,
    pub parts: Vec<u64>,
    pub lent: Lent,
}

/// The answer, how many frames are finished, and the buffers after the call.
pub type Called = (Answer, u64, Lent);

pub fn refused(number: u8) -> Answer {
    Err(Refusal {
        number,
        expected: 0,
        received: 0,
    })
}

pub fn number(answer: &Answer) -> u8 {
    answer.map_or_else(|refusal| refusal.number, |()| 0)
}

/// Where the number of each setting's code stands among those of a frame.
pub const CODES: [usize; 6] = [3, 4, 5, 6, 7, 11];

/// The first and the end of a part, which may lie past 2^64.
pub type Ends = (u128, u128);

/// Two parts have a byte in common.
pub fn share(a: Ends, b: Ends) -> bool {
    a.0.max(b.0) < a.1.min(b.1)
}

/// RULES 10.9: a frame by its numbers. None: a code has no meaning.
pub fn frame_by(n: &[u32; NUMBERS], [kr, kb]: [f32; 2]) -> Option<Frame> {
    let code = |i: usize| u8::try_from(n[i]).ok();
    Some(Frame {
        w: n[1],
        h: n[2],
        window: Window {
            left: n[12],
            top: n[13],
            source_width: n[14],
            source_height: n[15],
        },
        settings: Settings {
            channels: channels_of(code(3)?)?,
            sampling: sampling_of(code(4)?)?,
            range: range_of(code(5)?)?,
            matrix: if n[6] == 6 {
                YuvStandardMatrix::Custom(kr, kb)
            } else {
                matrix_of(code(6)?)?
            },
            transfer: transfer_of(code(7)?)?,
            rounding: rounding_of(code(11)?)?,
        },
        source_stride: n[0],
        y_stride: n[8],
        u_stride: n[9],
        v_stride: n[10],
    })
}

impl Convoy {
    fn told(&self) -> Numbers<'_> {
        Numbers {
            count: self.count,
            numbers: &self.numbers,
            customs: &self.customs,
            parts: &self.parts,
        }
    }

    /// So many frames, of a convoy that does not have too many.
    fn frames(&self) -> usize {
        self.count.min(65) as usize
    }

    fn part_number(&self, k: usize, i: usize) -> u64 {
        self.parts.get(PARTS * k + i).copied().unwrap_or(0)
    }

    pub fn ends(&self, k: usize, buffer: usize) -> Ends {
        let [offset, length] = [0, 1].map(|i| u128::from(self.part_number(k, 2 * buffer + i)));
        (offset, offset + length)
    }

    fn is_inside(&self, k: usize, buffer: usize) -> bool {
        self.ends(k, buffer).1 <= self.lent[buffer].len() as u128
    }

    /// Why it is answered with 18, if it is.
    pub fn broken(&self) -> Option<&'static str> {
        let frames = 0..self.frames();
        if self.count > 64 {
            return Some(TOO_MANY);
        }
        let all = || frames.clone().flat_map(|k| (0..4).map(move |b| (k, b)));
        if all().any(|(k, buffer)| !self.is_inside(k, buffer)) {
            return Some(OUTSIDE);
        }
        let overlaps = |k: usize, plane: usize| {
            (0..k).any(|j| share(self.ends(j, plane), self.ends(k, plane)))
        };
        let planes = all().filter(|(_, buffer)| *buffer > 0);
        (planes.into_iter().any(|(k, plane)| overlaps(k, plane))).then_some(OVERLAP)
    }

    /// Frame k. None: a number is missing, or a code has no meaning.
    pub fn frame(&self, k: usize) -> Option<Frame> {
        let numbers = self.numbers.get(NUMBERS * k..)?.first_chunk()?;
        let custom = |i: usize| (self.customs.get(CUSTOMS * k + i).copied()).unwrap_or(f32::NAN);
        frame_by(numbers, [custom(0), custom(1)])
    }

    /// A part of a convoy that is not answered with 18, as places of its buffer.
    fn places(&self, k: usize, buffer: usize) -> std::ops::Range<usize> {
        let (start, end) = self.ends(k, buffer);
        start as usize..end as usize
    }

    /// Single calls in order on copies of the parts, which are put back. Each answer is held to the list of conditions.
    pub fn by_single_calls(&self, converter: &dyn Converter) -> Result<Called, String> {
        let mut lent = self.lent.clone();
        if self.broken().is_some() {
            return Ok((refused(18), 0, lent));
        }
        for k in 0..self.frames() {
            let Some(frame) = self.frame(k) else {
                return Ok((refused(1), k as u64, lent));
            };
            let part = |buffer: usize| lent[buffer][self.places(k, buffer)].to_vec();
            let request = FrameRequest {
                frame,
                lent: [0, 1, 2, 3].map(part),
            };
            let should = conditions::of_frame(&request);
            if converter.has(number(&should)) {
                let (answer, after) = frame_of(converter, &request);
                equal_answers(converter.name(), &answer, &should)?;
                for buffer in 0..4 {
                    lent[buffer][self.places(k, buffer)].copy_from_slice(&after.lent[buffer]);
                }
            }
            if should.is_err() {
                return Ok((should, k as u64, lent));
            }
        }
        Ok((Ok(()), self.count, lent))
    }

    /// One call, with other bytes around the planes that are lent.
    pub fn call(&self, converter: &dyn Converter) -> Result<Called, String> {
        let name = converter.name();
        let [source, y, u, v] = self.lent.clone();
        let mut planes = (Vec::new(), Vec::new());
        let ((answer, done), y) = around(name, &y, 0x55, |y| {
            let (inner, u) = around(name, &u, 0xaa, |u| {
                around(name, &v, 0x33, |v| {
                    converter.convoy(&self.told(), &source, y, u, v)
                })
            })?;
            planes.0 = u;
            let (answered, v) = inner?;
            planes.1 = v;
            Ok::<_, String>(answered)
        })
        .and_then(|(answered, y)| Ok((answered?, y)))?;
        Ok((answer, done, [source, y, planes.0, planes.1]))
    }
}

fn equal_calls(name: &str, is: &Called, should: &Called) -> Result<(), String> {
    equal_answers(name, &is.0, &should.0)?;
    equal(name, "frames finished", is.1, should.1)?;
    equal_lent(name, &is.2, &should.2)
}

impl Case for Convoy {
    /// The single calls of all converters come to the same, and so does the one call of each that has it.
    fn check(&self, converters: &Converters) -> Result<u8, String> {
        let should = self.by_single_calls(&*converters[0])?;
        for converter in &converters[1..] {
            let name = format!("{}, single calls", converter.name());
            equal_calls(&name, &self.by_single_calls(&**converter)?, &should)?;
        }
        for converter in converters.iter().filter(|one| one.has_convoys()) {
            equal_calls(converter.name(), &self.call(&**converter)?, &should)?;
        }
        Ok(number(&should.0))
    }

    /// Without one of its frames, or without those behind one.
    fn smaller(&self) -> Vec<Convoy> {
        let frames = self.frames();
        let without = |k: usize| {
            let mut fewer = self.clone();
            let end = |length: usize, each: usize| length.min(each * k)..length.min(each * (k + 1));
            fewer.numbers.drain(end(self.numbers.len(), NUMBERS));
            fewer.customs.drain(end(self.customs.len(), CUSTOMS));
            fewer.parts.drain(end(self.parts.len(), PARTS));
            fewer.count -= 1;
            fewer
        };
        let first = |k: usize| Convoy {
            count: k as u64,
            ..self.clone()
        };
        let halves = [frames / 2, frames.saturating_sub(1)];
        let shorter = halves.into_iter().filter(|k| *k < frames).map(first);
        shorter.chain((0..frames).map(without)).collect()
    }

    /// convoy count numbers customs parts source y u v
    fn text(&self) -> String {
        let words = |numbers: Vec<String>| numbers.join(",");
        let numbers = words(self.numbers.iter().map(u32::to_string).collect());
        let bits = |k: &f32| format!("{:08x}", k.to_bits());
        let customs = words(self.customs.iter().map(bits).collect());
        let parts = words(self.parts.iter().map(u64::to_string).collect());
        let lent = self.lent.each_ref().map(|bytes| hex(bytes)).join(" ");
        format!(
            "convoy {} [{numbers}] [{customs}] [{parts}] {lent}",
            self.count
        )
    }
}

// What is met, and counted.

const TOO_MANY: &str = "more than 64 frames";
const OUTSIDE: &str = "a part outside";
const OVERLAP: &str = "planes that overlap";

/// What random convoys must have.
const MET: [&str; 33] = [
    "no frame",
    "one frame",
    "64 frames",
    "64 frames finished",
    "65 frames",
    "2^32 frames and more",
    "refused at 0",
    "refused in the middle",
    "refused at 63",
    "18, and a frame that is refused",
    "18 in a convoy of 64",
    "outside by one byte",
    "outside in the source alone",
    "no bytes past the end",
    "no bytes at the end",
    "no bytes inside another's bytes",
    "offset + length past 2^64",
    "offset + length past 2^64, the low 64 bits inside",
    "plane parts that touch, finished",
    "one byte of two frames",
    "the same plane part twice",
    "overlapping in Y alone",
    "overlapping in U alone",
    "overlapping in V alone",
    "overlapping frames that are not neighbours in the list",
    "source parts shared, finished",
    "the same source part twice, finished",
    "channel orders, samplings, matrices differ, finished",
    "roundings differ, finished",
    "windows differ, finished",
    "numbers of a frame missing",
    "kr or kb missing, 4",
    "numbers of parts missing",
];

impl Convoy {
    /// Which of these it has; `answer` and `done` are what it is answered.
    fn met(&self, answer: &Answer, done: u64) -> Vec<&'static str> {
        let (n, finished) = (self.frames(), answer.is_ok());
        let last = (n as u64).saturating_sub(1);
        let is_18 = number(answer) == 18;
        let refused = !is_18 && !finished;
        let frames: Vec<Option<Frame>> = (0..n).map(|k| self.frame(k)).collect();
        let parts = || (0..n).flat_map(|k| (0..4).map(move |buffer| (k, buffer)));
        let length = |buffer: usize| self.lent[buffer].len() as u128;
        let is_empty = |ends: Ends| ends.0 == ends.1;
        let outside: Vec<(usize, usize)> =
            parts().filter(|(k, b)| !self.is_inside(*k, *b)).collect();
        let pairs = || (0..n).flat_map(|k| (0..k).map(move |j| (j, k)));
        let any_pair = |buffers: std::ops::Range<usize>, of: &dyn Fn(Ends, Ends) -> bool| {
            let mut all = pairs().flat_map(|(j, k)| buffers.clone().map(move |b| (j, k, b)));
            all.any(|(j, k, b)| of(self.ends(j, b), self.ends(k, b)))
        };
        let overlapping = |plane: usize| any_pair(plane..plane + 1, &share);
        let [y, u, v] = [1, 2, 3].map(|plane| is_18 && overlapping(plane));
        let overlap = self.broken() == Some(OVERLAP);
        let alone = |one: bool, others: bool| overlap && one && !others;
        let differ = |of: &dyn Fn(&Frame) -> String| {
            let texts: Vec<String> = frames.iter().flatten().map(of).collect();
            finished && texts.windows(2).any(|two| two[0] != two[1])
        };
        let refused_frame = parts().filter(|(_, b)| *b == 0).any(|(k, _)| {
            let inside = (0..4).all(|b| self.is_inside(k, b));
            match &frames[k] {
                None => true,
                Some(frame) => {
                    inside && {
                        let part = |b: usize| self.lent[b][self.places(k, b)].to_vec();
                        let request = FrameRequest {
                            frame: *frame,
                            lent: [0, 1, 2, 3].map(part),
                        };
                        conditions::of_frame(&request).is_err()
                    }
                }
            }
        });
        let small = self.count <= 64;
        let has = [
            self.count == 0,
            self.count == 1,
            self.count == 64,
            self.count == 64 && finished,
            self.count == 65,
            self.count >= 1 << 32,
            refused && done == 0,
            refused && 0 < done && done < last,
            refused && done == 63,
            small && is_18 && refused_frame,
            self.count == 64 && is_18,
            small && (outside.iter()).any(|(k, b)| self.ends(*k, *b).1 == length(*b) + 1),
            small && !outside.is_empty() && outside.iter().all(|(_, b)| *b == 0),
            small && (outside.iter()).any(|(k, b)| is_empty(self.ends(*k, *b))),
            !is_18 && parts().any(|(k, b)| self.ends(k, b) == (length(b), length(b))),
            !is_18
                && any_pair(1..4, &|a, b| {
                    let inside =
                        |none: Ends, all: Ends| is_empty(none) && all.0 < none.0 && none.0 < all.1;
                    inside(a, b) || inside(b, a)
                }),
            small && outside.iter().any(|(k, b)| self.ends(*k, *b).1 >> 64 > 0),
            small
                && outside.iter().any(|(k, b)| {
                    let end = self.ends(*k, *b).1;
                    end >> 64 > 0 && u128::from(end as u64) <= length(*b)
                }),
            finished && any_pair(1..4, &|a, b| a.1 == b.0 || b.1 == a.0),
            overlap
                && any_pair(1..4, &|a, b| {
                    share(a, b) && a.1.min(b.1) - a.0.max(b.0) == 1
                }),
            overlap && any_pair(1..4, &|a, b| a == b && !is_empty(a)),
            alone(y, u || v),
            alone(u, y || v),
            alone(v, y || u),
            overlap
                && !pairs().any(|(j, k)| {
                    k == j + 1 && (1..4).any(|b| share(self.ends(j, b), self.ends(k, b)))
                }),
            finished && any_pair(0..1, &|a, b| a != b && share(a, b)),
            finished && any_pair(0..1, &|a, b| a == b),
            differ(&|f| format!("{:?}", f.settings.channels))
                && differ(&|f| format!("{:?}", f.settings.sampling))
                && differ(&|f| format!("{:?}", f.settings.matrix)),
            differ(&|f| format!("{:?}", f.settings.rounding)),
            differ(&|f| format!("{:?}", f.window)),
            number(answer) == 1 && self.numbers.len() < NUMBERS * (done as usize + 1),
            number(answer) == 4 && self.customs.len() < CUSTOMS * (done as usize + 1),
            small && self.parts.len() < PARTS * n,
        ];
        MET.into_iter()
            .zip(has)
            .filter(|(_, has)| *has)
            .map(|(met, _)| met)
            .collect()
    }
}

/// So many random convoys. All that stands in the list above must be met, where there are enough.
pub fn check(convoys: u64, seed: u64, converters: &Converters) -> Result<String, String> {
    const ENOUGH: u64 = 5_000;
    let mut answers: BTreeMap<u8, u64> = BTreeMap::new();
    let mut met: BTreeMap<&str, u64> = BTreeMap::new();
    let mut why: BTreeMap<&str, u64> = BTreeMap::new();
    let (mut frames, mut bytes) = (0, 0);
    for case in 0..convoys {
        let convoy = Convoy::random(&mut Random::new(seed, 70, case));
        let number = checked(&convoy, converters).map_err(|wrong| {
            let (smaller, wrong) = smallest(&convoy, converters, wrong);
            format!("convoys: case {case}: {wrong}\n{}", smaller.text())
        })?;
        let (answer, done, _) = convoy.by_single_calls(&*converters[0])?;
        *answers.entry(number).or_default() += 1;
        for one in convoy.met(&answer, done) {
            *met.entry(one).or_default() += 1;
        }
        if let Some(one) = convoy.broken() {
            *why.entry(one).or_default() += 1;
        }
        frames += done;
        bytes += convoy
            .lent
            .iter()
            .map(|buffer| buffer.len() as u64)
            .sum::<u64>();
    }
    let missing = MET.iter().find(|one| !met.contains_key(*one));
    if let Some(missing) = missing.filter(|_| convoys >= ENOUGH) {
        return Err(format!("convoys: none with {missing}"));
    }
    let finished = answers.remove(&0).unwrap_or(0);
    let counted = |(said, count): (&str, u64)| format!("{said}: {count}");
    let met: Vec<String> = (MET.iter())
        .map(|one| counted((one, met.get(one).copied().unwrap_or(0))))
        .collect();
    let refused: Vec<String> = answers
        .iter()
        .map(|(n, count)| format!("{n}: {count}"))
        .collect();
    let why: Vec<String> = why.into_iter().map(counted).collect();
    Ok(format!(
        "convoys: {convoys} equal, {finished} finished, refused {} (18: {}), {frames} frames converted in {bytes} bytes, \
         met: {}",
        refused.join(", "),
        why.join(", "),
        met.join("; ")
    ))
}

// Random ones.

impl Convoy {
    /// The frames one behind the other in each buffer, in the order given for it, with so many other bytes before
    /// each and behind the last.
    pub fn of(
        random: &mut Random,
        frames: &[FrameRequest],
        mut order: impl FnMut(&mut Random, usize) -> Vec<usize>,
        mut gap: impl FnMut(&mut Random) -> usize,
    ) -> Convoy {
        let mut lent: Lent = Default::default();
        let mut parts = vec![0; PARTS * frames.len()];
        for (buffer, bytes) in lent.iter_mut().enumerate() {
            for k in order(random, buffer) {
                let between = gap(random);
                bytes.extend(random.bytes(between));
                let part = &frames[k].lent[buffer];
                let numbers = [bytes.len(), part.len()].map(|number| number as u64);
                parts[PARTS * k + 2 * buffer..][..2].copy_from_slice(&numbers);
                bytes.extend(part);
            }
            let behind = gap(random);
            bytes.extend(random.bytes(behind));
        }
        let (mut numbers, mut customs) = (Vec::new(), Vec::new());
        for request in frames {
            let (of_frame, custom) = frame_numbers(&request.frame);
            numbers.extend(of_frame);
            // What is not looked at is anything.
            let other = random.pick(&[0.0, 0.25, f32::NAN, f32::INFINITY, -1.0]);
            customs.extend(custom.unwrap_or([other; 2]));
        }
        Convoy {
            count: frames.len() as u64,
            numbers,
            customs,
            parts,
            lent,
        }
    }

    pub fn part(&mut self, k: usize, buffer: usize) -> &mut [u64] {
        &mut self.parts[PARTS * k + 2 * buffer..][..2]
    }

    pub fn random(random: &mut Random) -> Convoy {
        let count = match random.below(24) {
            0 => 0,
            1 | 2 => 1,
            3 => 64,
            4 => 63,
            5 => random.from(9, 62),
            _ => random.from(2, 8),
        } as usize;
        let side = random.pick(&[1, 3, 6, if count < 9 { 17 } else { 4 }]);
        let mut frames: Vec<FrameRequest> = (0..count)
            .map(|_| random::small_frame(random, side))
            .collect();
        // Two frames of one size, which can have the same source.
        if count > 1 && random.one_in(4) {
            let settings = frames[1].frame.settings;
            frames[1] = frames[0].clone();
            frames[1].frame.settings = Settings {
                channels: frames[0].frame.settings.channels,
                sampling: frames[0].frame.settings.sampling,
                ..settings
            };
        }
        let at = match random.below(4) {
            0 => 0,
            1 => count.saturating_sub(1),
            _ => random.below(count.max(1) as u64) as usize,
        };
        let faulty = count > 0 && random.one_in(3);
        if faulty {
            spoil(random, &mut frames, at);
        }
        let shuffled = random.one_in(2);
        let order = |random: &mut Random, _| {
            let mut order: Vec<usize> = (0..count).collect();
            for i in (1..count).filter(|_| shuffled) {
                order.swap(i, random.below(i as u64 + 1) as usize);
            }
            order
        };
        let most = random.pick(&[0, 1, 9]);
        let mut convoy = Convoy::of(random, &frames, order, |random| {
            random.below(most + 1) as usize
        });
        if count > 0 {
            convoy.share_sources(random);
            if faulty && random.one_in(2) {
                convoy.move_empty_parts(random);
            }
            if random.one_in(9) {
                convoy.lose_numbers(random, at);
            }
            if random.one_in(3) {
                convoy.break_parts(random);
            }
        }
        if random.one_in(24) {
            convoy.count = random.pick(&[65, 65, 65, 66, 100, 1 << 32, (1 << 32) + 1, u64::MAX]);
            let frames = convoy.count.min(66) as usize;
            if random.one_in(2) {
                let parts = convoy.parts.first_chunk::<PARTS>().copied();
                let none = [0; PARTS];
                convoy.parts = [parts.unwrap_or(none), none.map(|_| 0)].concat();
                convoy.parts.resize(PARTS * frames, 0);
                convoy.numbers.resize(NUMBERS * frames, 1);
            }
        }
        if random.one_in(12) {
            let more = random.from(1, 20) as usize;
            convoy
                .numbers
                .extend(random.bytes(more).into_iter().map(u32::from));
            convoy.customs.extend(vec![f32::NAN; more]);
            convoy.parts.extend(vec![u64::MAX; more]);
        }
        convoy
    }

    /// Some source parts where others are, or anywhere.
    fn share_sources(&mut self, random: &mut Random) {
        if !random.one_in(3) {
            return;
        }
        let (n, whole) = (self.count, self.lent[0].len() as u64);
        for k in 0..n as usize {
            let other = random.below(n) as usize;
            let (length, start) = (self.part(k, 0)[1], self.part(other, 0)[0]);
            let offset = match random.below(3) {
                0 => start.min(whole - length),
                1 => random.below(whole - length + 1),
                _ => continue,
            };
            self.part(k, 0)[0] = offset;
        }
    }

    /// Parts of no bytes to the end of their buffer, or among the bytes of others.
    fn move_empty_parts(&mut self, random: &mut Random) {
        for (k, buffer) in (0..self.count as usize).flat_map(|k| (0..4).map(move |b| (k, b))) {
            let length = self.lent[buffer].len() as u64;
            if self.part(k, buffer)[1] == 0 {
                let anywhere = random.below(length + 1);
                self.part(k, buffer)[0] = random.pick(&[length, anywhere, anywhere]);
            }
        }
    }

    /// A code without a meaning at this frame, or lists that end there.
    fn lose_numbers(&mut self, random: &mut Random, at: usize) {
        let few = |random: &mut Random, each: usize| each * at + random.below(each as u64) as usize;
        match random.below(5) {
            0 | 1 => {
                let number = &mut self.numbers[NUMBERS * at + random.pick(&CODES)];
                let wraps = *number + random.pick(&[256, 65_536, 1 << 31]);
                *number = random.pick(&[7, 255, u32::MAX, wraps, wraps]);
            }
            2 => self.numbers.truncate(few(random, NUMBERS)),
            3 => {
                self.numbers[NUMBERS * at + 6] = 6;
                self.customs.truncate(few(random, CUSTOMS));
            }
            _ => self.parts.truncate(few(random, PARTS)),
        }
    }

    /// One part outside its buffer, or two in the same bytes of a plane.
    fn break_parts(&mut self, random: &mut Random) {
        let n = self.parts.len() / PARTS;
        if n == 0 {
            return;
        }
        let k = random.below(n as u64) as usize;
        let buffer = random.below(4) as usize;
        let end = self.lent[buffer].len() as u64;
        let [offset, length] = *self.part(k, buffer) else {
            unreachable!("two numbers")
        };
        let other = random.below(n as u64) as usize;
        if other != k && buffer > 0 && random.one_in(2) {
            let [start, others] = *self.part(other, buffer) else {
                unreachable!("two numbers")
            };
            let last = (start + others).saturating_sub(1);
            let before = (start + 1).saturating_sub(length);
            let to = random.pick(&[start, last, before, last]);
            self.part(k, buffer)[0] = to;
            if random.one_in(3) {
                self.part(k, buffer)[1] = others;
            }
            let all = self.part(k, buffer).iter().sum::<u64>().max(end);
            self.lent[buffer].resize(all as usize, 0x5a);
            return;
        }
        let back = random.from(1, 9).into();
        let inside = random.below(end + 1);
        let part = match random.below(8) {
            0 | 1 => [(end + 1).saturating_sub(length), length.max(1)],
            2 => [end + 1, 0],
            3 => [u64::MAX - random.below(3), random.below(3)],
            4 => [0u64.wrapping_sub(back), back + inside],
            5 => [
                offset,
                0u64.wrapping_sub(offset) + inside.min(offset.saturating_sub(1)),
            ],
            6 => [offset + (1 << 32), length],
            _ => [1 << 63, 1 << 63],
        };
        self.part(k, buffer).copy_from_slice(&part);
    }
}

/// Makes a frame one that is likely refused; those behind it may have parts of no bytes.
fn spoil(random: &mut Random, frames: &mut [FrameRequest], at: usize) {
    match random.below(4) {
        0 => {
            for frame in &mut frames[at..] {
                let buffer = random.below(4) as usize;
                frame.lent[buffer].clear();
            }
        }
        _ => random::frame_fault(random, &mut frames[at]),
    }
}
