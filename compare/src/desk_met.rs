//! What random histories of the front desk must have, and what is counted of them. The model makes the calls.

use crate::converter::Opening;
use crate::convoy::{Ends, share};
use crate::desk::{Ask, History, WITHIN};
use crate::desk_mistakes::frame_described;
use model::desk::{Band, Buffers, Desk, DeskNumbers, FIRST, NUMBERS, OpenFrame, Told};
use model::shift::Part;
use model::{Window, YuvChromaSubsampling, YuvStandardMatrix};
use std::collections::{BTreeMap, BTreeSet};

pub const MET: [&str; 98] = [
    "32 frames open at once",
    "an opening of 10 numbers",
    "an opening of 11 numbers",
    "an opening of 15 numbers",
    "a window",
    "a camera above 31 opened",
    "a camera of 32 and more that is in use modulo 32",
    "a camera in use",
    "21 and 18 of an opening",
    "21 and 1 of an opening",
    "23 and 18",
    "23 and 1",
    "23 and 2, 3, 4 or 14",
    "18 and 1",
    "18 and 2, 3, 4 or 14",
    "1 by the count of numbers",
    "1 by a code",
    "2 at an opening",
    "3 at an opening",
    "4 at an opening",
    "14 at an opening",
    "outside in Y alone",
    "outside in U alone",
    "outside in V alone",
    "outside in carried rows alone",
    "outside by one byte",
    "no bytes past the end",
    "no bytes at the end, opened",
    "no bytes inside another's bytes, opened",
    "offset + length past 2^64",
    "offset + length past 2^64, the low 64 bits inside",
    "overlapping in Y alone",
    "overlapping in U alone",
    "overlapping in V alone",
    "overlapping in carried rows alone",
    "overlapping by one byte",
    "overlapping a frame with a band waiting alone",
    "overlapping a frame with no band waiting alone",
    "overlapping cameras of higher numbers alone",
    "parts that touch, opened",
    "the same part in unlike buffers of two frames, opened",
    "told longer than the buffers are, opened",
    "a number opened again before the next step",
    "parts of a frame finished at the step before, opened by another camera",
    "a camera above 31 offered",
    "a camera of 32 and more whose band waits modulo 32",
    "a band offered without an open frame",
    "a band offered after the last row",
    "22",
    "22 and 18",
    "18 at an offer",
    "21 and 18 of an offer",
    "a band that wraps past 2^64 offered",
    "a band of no bytes accepted",
    "two bands that wait in the same bytes",
    "none waiting, and no frame open",
    "none waiting, and a frame open",
    "all 32 waiting",
    "served behind 31, going round",
    "open cameras passed over",
    "served at the 32nd step",
    "2, 3, 4 or 14 at a step",
    "5 at a step",
    "6 at a step",
    "7 at a step",
    "8 at a step",
    "9 at a step",
    "10 at a step",
    "11 at a step",
    "12 at a step",
    "13 at a step",
    "18 at a step, the source shorter",
    "18 at a step, Y shorter",
    "18 at a step, U shorter",
    "18 at a step, V shorter",
    "18 at a step, carried rows shorter",
    "18 at a step, by parts that were outside from the first",
    "served with a buffer that ends with its part",
    "18 and 5 of a step",
    "a refused band, then one accepted",
    "a frame finished",
    "a frame finished in two bands and more",
    "a frame finished after a refused band",
    "a frame finished while others were served",
    "a carried row handed on over another camera's step",
    "an opening while a band waits at another camera",
    "camera asked first above 31, served",
    "camera asked first above 31, none served",
    "a first number above 2, passed over",
    "a first number above 2, opened",
    "a code without a meaning, served",
    "a code without a meaning, offered",
    "kr or kb without Custom, written anew",
    "Custom that is refused, served",
    "open frames that overlap, served",
    "rows done at the height or past it, served",
    "a size of 0 or above 16,384, served",
    "numbers left in a free place, opened",
];

#[derive(Default)]
pub struct Met {
    cases: BTreeMap<&'static str, u64>,
    answers: BTreeMap<&'static str, BTreeMap<u64, u64>>,
    settings: BTreeSet<String>,
    finished: u64,
    bytes: u64,
    fresh: u64,
    longest: u32,
}

/// One history as it goes.
struct Going<'m> {
    met: &'m mut Met,
    desk: DeskNumbers,
    buffers: [Vec<u8>; 5],
    /// Of each open frame: its bands, those refused, the steps of others, and whether one fell between two of its own
    /// with an even row behind it.
    frames: BTreeMap<u32, Frame>,
    waits: BTreeMap<u32, u32>,
    /// What became free at the step before.
    freed: Option<(u32, [Part; 4])>,
    was_freed: BTreeSet<u32>,
}

#[derive(Default)]
struct Frame {
    bands: u32,
    refused: u32,
    others: u32,
}

fn ends(part: Part) -> Ends {
    let start = u128::from(part.offset);
    (start, start + u128::from(part.length))
}

fn part(numbers: &[u64], k: usize) -> Part {
    Part {
        offset: numbers[2 * k],
        length: numbers[2 * k + 1],
    }
}

fn is_outside(part: Part, length: u64) -> bool {
    ends(part).1 > u128::from(length)
}

impl Met {
    /// A case of the list that was not met, or one that was and is not in it.
    pub fn missing(&self) -> Option<&'static str> {
        let not_met = MET.iter().find(|one| !self.cases.contains_key(*one));
        let unknown = self.cases.keys().find(|one| !MET.contains(*one));
        not_met.or(unknown).copied()
    }

    fn note(&mut self, name: &'static str, holds: bool) {
        if holds {
            *self.cases.entry(name).or_default() += 1;
        }
    }

    pub fn history(&mut self, history: &History) {
        self.fresh += u64::from(history.is_fresh());
        let bytes = history.buffers.iter().map(|buffer| buffer.len() as u64);
        self.bytes += bytes.sum::<u64>();
        let mut going = Going {
            met: self,
            desk: history.desk,
            buffers: history.buffers.clone(),
            frames: BTreeMap::new(),
            waits: BTreeMap::new(),
            freed: None,
            was_freed: BTreeSet::new(),
        };
        for ask in &history.asks {
            going.ask(ask);
        }
    }

    pub fn text(&self) -> String {
        let counted = |(number, count): (&u64, &u64)| format!("{number}: {count}");
        let mut calls = Vec::new();
        for (kind, answers) in &self.answers {
            let all: u64 = answers.values().sum();
            let refused: Vec<String> = (answers.iter())
                .filter(|(number, _)| **number != 0)
                .map(counted)
                .collect();
            calls.push(format!("{all} {kind} (refused {})", refused.join(", ")));
        }
        let met: Vec<String> = (MET.iter())
            .map(|one| format!("{one}: {}", self.cases.get(one).copied().unwrap_or(0)))
            .collect();
        format!(
            "{} of them on a fresh desk; {}; {} frames finished, of {} settings of 896, each as by one frame call; \
             at most {} steps waited; {} bytes; met: {}",
            self.fresh,
            calls.join(", "),
            self.finished,
            self.settings.len(),
            self.longest,
            self.bytes,
            met.join("; ")
        )
    }
}

impl Going<'_> {
    fn note(&mut self, name: &'static str, holds: bool) {
        self.met.note(name, holds);
    }

    fn answered(&mut self, kind: &'static str, told: &Told) {
        let answers = self.met.answers.entry(kind).or_default();
        *answers.entry(told[0]).or_default() += 1;
    }

    fn ask(&mut self, ask: &Ask) {
        let before = self.desk.desk();
        match ask {
            Ask::Open(opening) => self.open(&before, opening),
            Ask::Offer {
                camera,
                band,
                place,
            } => self.offer(&before, *camera, *band, *place),
            Ask::Step { lent } => self.step(&before, lent),
            Ask::Deliver { offset, bytes } => {
                self.buffers[0][*offset..][..bytes.len()].copy_from_slice(bytes);
            }
        }
        let open = self.desk.desk().cameras;
        self.note("32 frames open at once", open.iter().all(Option::is_some));
        let all = open
            .iter()
            .all(|open| open.is_some_and(|open| open.band.is_some()));
        self.note("all 32 waiting", all);
    }

    fn open(&mut self, before: &Desk, o: &Opening) {
        let numbers = self.desk;
        let told = (self.desk).open(o.camera, &o.described, o.custom, &o.parts, o.lengths);
        self.answered("openings", &told);
        let opened = told[0] == 0;
        let above = o.camera > 31;
        let low = o.camera as usize % 32;
        let in_use = !above && before.cameras[low].is_some();
        let parts = [0, 1, 2, 3].map(|k| part(&o.parts, k));
        let outside = [0, 1, 2, 3].map(|k| is_outside(parts[k], o.lengths[k]));
        let open = |c: &usize| before.cameras[*c].is_some();
        let overlaps = |c: &usize, k: usize| {
            let open = before.cameras[*c];
            open.is_some_and(|open| share(ends(open.parts[k]), ends(parts[k])))
        };
        let overlapped: Vec<usize> = (0..32).filter(|c| (0..4).any(|k| overlaps(c, k))).collect();
        let in_buffer = [0, 1, 2, 3].map(|k| overlapped.iter().any(|c| overlaps(c, k)));
        let is_18 = outside.contains(&true) || !overlapped.is_empty();
        let frame = frame_described(&o.described, o.custom);
        let sizes = frame.map(|(state, _)| crate::conditions::of_opening(&state));
        let refused_size = matches!(sizes, Some(Err(_)));
        let counts = matches!(o.described.len(), 10 | 11 | 15);

        for (count, name) in [
            (10, "an opening of 10 numbers"),
            (11, "an opening of 11 numbers"),
            (15, "an opening of 15 numbers"),
        ] {
            self.note(name, opened && o.described.len() == count);
        }
        let window = frame.is_some_and(|(s, _)| s.window != Window::whole(s.w, s.h));
        self.note("a window", opened && window);
        self.note("a camera above 31 opened", above);
        let modulo = above && before.cameras[low].is_some();
        self.note("a camera of 32 and more that is in use modulo 32", modulo);
        self.note("a camera in use", in_use);
        self.note("21 and 18 of an opening", above && is_18);
        self.note("21 and 1 of an opening", above && frame.is_none());
        self.note("23 and 18", in_use && is_18);
        self.note("23 and 1", in_use && !is_18 && frame.is_none());
        self.note("23 and 2, 3, 4 or 14", in_use && !is_18 && refused_size);
        self.note("18 and 1", told[0] == 18 && frame.is_none());
        self.note("18 and 2, 3, 4 or 14", told[0] == 18 && refused_size);
        self.note("1 by the count of numbers", told[0] == 1 && !counts);
        self.note("1 by a code", told[0] == 1 && counts);
        for (number, name) in [
            (2, "2 at an opening"),
            (3, "3 at an opening"),
            (4, "4 at an opening"),
            (14, "14 at an opening"),
        ] {
            self.note(name, told[0] == number);
        }

        let alone = |of: [bool; 4], k: usize| {
            told[0] == 18 && of[k] && (0..4).all(|other| other == k || !of[other])
        };
        for (k, outside_name, overlap_name) in [
            (0, "outside in Y alone", "overlapping in Y alone"),
            (1, "outside in U alone", "overlapping in U alone"),
            (2, "outside in V alone", "overlapping in V alone"),
            (
                3,
                "outside in carried rows alone",
                "overlapping in carried rows alone",
            ),
        ] {
            self.note(outside_name, alone(outside, k) && overlapped.is_empty());
            self.note(
                overlap_name,
                alone(in_buffer, k) && !outside.contains(&true),
            );
            let (start, end) = ends(parts[k]);
            let length = u128::from(o.lengths[k]);
            let only_outside = told[0] == 18 && overlapped.is_empty();
            self.note("outside by one byte", only_outside && end == length + 1);
            let empty = start == end;
            self.note(
                "no bytes past the end",
                only_outside && empty && start > length,
            );
            self.note(
                "no bytes at the end, opened",
                opened && empty && start == length,
            );
            let others = (0..32).filter(open);
            let of_others: Vec<Ends> = (others.clone())
                .filter_map(|c| before.cameras[c].map(|open| ends(open.parts[k])))
                .collect();
            let among = |other: &Ends| other.0 < start && end < other.1;
            let inside = opened && empty && of_others.iter().any(among);
            self.note("no bytes inside another's bytes, opened", inside);
            let wide = only_outside && end >> 64 > 0;
            self.note("offset + length past 2^64", wide);
            let low_inside = wide && u128::from(end as u64) <= length;
            self.note(
                "offset + length past 2^64, the low 64 bits inside",
                low_inside,
            );
            let touches = |other: &Ends| other.1 == start || end == other.0;
            let touching = opened && !empty && of_others.iter().any(touches);
            self.note("parts that touch, opened", touching);
            let one = |other: &Ends| {
                share(*other, (start, end)) && other.1.min(end) - other.0.max(start) == 1
            };
            let by_one = told[0] == 18 && !outside.contains(&true) && of_others.iter().any(one);
            self.note("overlapping by one byte", by_one);
            let unlike = others.filter_map(|c| before.cameras[c]).any(|open| {
                (0..4).any(|other| other != k && share(ends(open.parts[other]), (start, end)))
            });
            let name = "the same part in unlike buffers of two frames, opened";
            self.note(name, opened && unlike);
        }
        let overlap_alone = told[0] == 18 && !outside.contains(&true);
        let waits = |c: &usize| before.cameras[*c].is_some_and(|open| open.band.is_some());
        let waiting = overlap_alone && overlapped.iter().all(waits);
        self.note("overlapping a frame with a band waiting alone", waiting);
        let idle = overlap_alone && !overlapped.iter().any(waits);
        self.note("overlapping a frame with no band waiting alone", idle);
        let higher = overlap_alone && overlapped.iter().all(|c| *c > o.camera as usize);
        self.note("overlapping cameras of higher numbers alone", higher);
        let longer = (0..4).any(|k| is_outside(parts[k], self.buffers[k + 1].len() as u64));
        self.note("told longer than the buffers are, opened", opened && longer);
        if let Some((freed, of_freed)) = self.freed {
            self.note(
                "a number opened again before the next step",
                opened && freed == o.camera,
            );
            let taken = (0..4).any(|k| share(ends(of_freed[k]), ends(parts[k])));
            let name = "parts of a frame finished at the step before, opened by another camera";
            self.note(name, opened && freed != o.camera && taken);
        }
        self.note(
            "an opening while a band waits at another camera",
            opened && (0..32).any(|c| waits(&c)),
        );
        if opened {
            let kind = numbers.numbers[NUMBERS * low];
            self.note("a first number above 2, opened", kind > 2);
            let left = numbers.numbers[NUMBERS * low..][1..NUMBERS]
                .iter()
                .any(|n| *n != 0);
            self.note("numbers left in a free place, opened", left);
            self.frames.insert(o.camera, Frame::default());
        }
    }

    fn offer(&mut self, before: &Desk, camera: u32, band: [u32; 2], place: [u64; 3]) {
        let numbers = self.desk;
        let told = self.desk.offer(camera, band, place);
        self.answered("offers", &told);
        let [offset, length, source] = place;
        let part = Part { offset, length };
        let outside = is_outside(part, source);
        let (above, low) = (camera > 31, camera as usize % 32);
        let open = before.cameras[low];
        let waits = |open: Option<OpenFrame>| open.is_some_and(|open| open.band.is_some());
        self.note("a camera above 31 offered", above);
        let modulo = above && waits(open);
        self.note("a camera of 32 and more whose band waits modulo 32", modulo);
        let none = !above && open.is_none();
        self.note("a band offered without an open frame", none);
        let after = none && self.was_freed.contains(&camera);
        self.note("a band offered after the last row", after);
        self.note("22", told[0] == 22);
        self.note("22 and 18", told[0] == 22 && outside);
        self.note("18 at an offer", told[0] == 18);
        self.note("21 and 18 of an offer", told[0] == 21 && outside);
        let wraps = ends(part).1 >> 64 > 0;
        self.note(
            "a band that wraps past 2^64 offered",
            told[0] == 18 && wraps,
        );
        let accepted = told[0] == 0;
        self.note("a band of no bytes accepted", accepted && length == 0);
        let bands = before.cameras.iter().flatten().filter_map(|open| open.band);
        let shared = bands
            .into_iter()
            .any(|other| share(ends(other.part), ends(part)));
        self.note("two bands that wait in the same bytes", accepted && shared);
        if accepted {
            self.waits.insert(camera, 0);
            let unknown = has_unknown_code(&numbers, low);
            self.note("a code without a meaning, offered", unknown);
            self.note(
                "kr or kb without Custom, written anew",
                has_other_custom(&numbers, low),
            );
        }
    }

    fn step(&mut self, before: &Desk, lent: &[usize; 5]) {
        let numbers = self.desk;
        let [source, y, u, v, carried] = &mut self.buffers;
        let told = self.desk.step(Buffers {
            source: &source[..lent[0]],
            y: &mut y[..lent[1]],
            u: &mut u[..lent[2]],
            v: &mut v[..lent[3]],
            carried: &mut carried[..lent[4]],
        });
        self.answered("steps", &told);
        self.freed = None;
        self.waits.values_mut().for_each(|steps| *steps += 1);
        let first = numbers.numbers[FIRST];
        let [number, _, _, served, camera] = told;
        if served == 0 {
            let none_open = before.cameras.iter().all(Option::is_none);
            self.note("none waiting, and no frame open", none_open);
            self.note("none waiting, and a frame open", !none_open);
            self.note("camera asked first above 31, none served", first > 31);
            let above = (0..32).any(|c| numbers.numbers[NUMBERS * c] > 2);
            self.note("a first number above 2, passed over", above);
            return;
        }
        let camera = camera as u32;
        let place = before.cameras[camera as usize];
        if let Some(OpenFrame {
            state,
            parts,
            band: Some(band),
        }) = place
        {
            self.served(before, (camera, number), (first, lent), parts, band);
            let (w, h) = (state.w, state.h);
            let odd_size = [w, h].iter().any(|side| *side == 0 || *side > 16_384);
            self.note("a size of 0 or above 16,384, served", odd_size);
            self.note(
                "rows done at the height or past it, served",
                h > 0 && state.done >= h,
            );
            let custom = matches!(state.settings.matrix, YuvStandardMatrix::Custom(..));
            self.note("Custom that is refused, served", number == 4 && custom);
            let accepted = number == 0;
            let finished = accepted && state.done + band.rows == h;
            let frame = self.frames.entry(camera).or_default();
            frame.bands += u32::from(accepted);
            frame.refused += u32::from(!accepted);
            let Frame {
                bands,
                refused,
                others,
            } = *frame;
            let odd =
                state.settings.sampling == YuvChromaSubsampling::Yuv420 && state.done % 2 == 1;
            let name = "a carried row handed on over another camera's step";
            self.note(name, accepted && odd && others > 0);
            self.note("a refused band, then one accepted", accepted && refused > 0);
            self.note("a frame finished", finished);
            self.note(
                "a frame finished in two bands and more",
                finished && bands > 1,
            );
            self.note(
                "a frame finished after a refused band",
                finished && refused > 0,
            );
            self.note(
                "a frame finished while others were served",
                finished && others > 0 && bands > 1,
            );
            if finished {
                self.met.finished += 1;
                let mut settings = state.settings;
                if custom {
                    settings.matrix = YuvStandardMatrix::Custom(0.0, 0.0);
                }
                self.met.settings.insert(format!("{settings:?}"));
                self.freed = Some((camera, parts));
                self.was_freed.insert(camera);
                self.frames.remove(&camera);
            }
        }
        for (other, frame) in &mut self.frames {
            frame.others += u32::from(*other != camera);
        }
        let low = camera as usize;
        self.note(
            "a code without a meaning, served",
            has_unknown_code(&numbers, low),
        );
        self.note(
            "kr or kb without Custom, written anew",
            has_other_custom(&numbers, low),
        );
        let above = (0..32).any(|c| numbers.numbers[NUMBERS * c] > 2);
        self.note("a first number above 2, passed over", above);
        if let Some(steps) = self.waits.remove(&camera) {
            self.met.longest = self.met.longest.max(steps);
            self.note("served at the 32nd step", steps == WITHIN);
        }
    }

    fn served(
        &mut self,
        before: &Desk,
        (camera, number): (u32, u64),
        (first, lent): (u32, &[usize; 5]),
        parts: [Part; 4],
        band: Band,
    ) {
        self.note("served behind 31, going round", camera < first % 32);
        self.note("camera asked first above 31, served", first > 31);
        let between = (0..32).map(|turn| (first % 32 + turn) % 32);
        let passed =
            (between.take_while(|c| *c != camera)).any(|c| before.cameras[c as usize].is_some());
        self.note("open cameras passed over", passed);
        for (wanted, name) in [
            (5, "5 at a step"),
            (6, "6 at a step"),
            (7, "7 at a step"),
            (8, "8 at a step"),
            (9, "9 at a step"),
            (10, "10 at a step"),
            (11, "11 at a step"),
            (12, "12 at a step"),
            (13, "13 at a step"),
        ] {
            self.note(name, number == wanted);
        }
        self.note("2, 3, 4 or 14 at a step", matches!(number, 2 | 3 | 4 | 14));
        let [y, u, v, carried] = parts;
        let all = [band.part, y, u, v, carried];
        let outside = [0, 1, 2, 3, 4].map(|b| is_outside(all[b], lent[b] as u64));
        let whole = |b: usize| self.buffers[b].len() as u64;
        let shorter = [0, 1, 2, 3, 4].map(|b| outside[b] && !is_outside(all[b], whole(b)));
        let never = (0..5).any(|b| is_outside(all[b], whole(b)));
        let name = "18 at a step, by parts that were outside from the first";
        self.note(name, never);
        for (b, name) in [
            "18 at a step, the source shorter",
            "18 at a step, Y shorter",
            "18 at a step, U shorter",
            "18 at a step, V shorter",
            "18 at a step, carried rows shorter",
        ]
        .into_iter()
        .enumerate()
        {
            let alone = (0..5).all(|other| outside[other] == (other == b));
            self.note(name, shorter[b] && alone);
            let exact = number == 0 && ends(all[b]).1 == lent[b] as u128;
            let cut = lent[b] < self.buffers[b].len();
            self.note("served with a buffer that ends with its part", exact && cut);
        }
        let open = before.cameras[camera as usize];
        let wrong_rows = open.is_some_and(|open| {
            band.rows == 0 || band.rows > open.state.h.saturating_sub(open.state.done)
        });
        self.note("18 and 5 of a step", number == 18 && wrong_rows);
        let overlaps = (0..32).filter(|c| *c != camera as usize).any(|c| {
            let open = before.cameras[c];
            open.is_some_and(|open| (0..4).any(|k| share(ends(open.parts[k]), ends(parts[k]))))
        });
        self.note("open frames that overlap, served", overlaps);
    }
}

/// Whether a place of a desk has a code without a meaning.
fn has_unknown_code(desk: &DeskNumbers, camera: usize) -> bool {
    let place = &desk.numbers[NUMBERS * camera..][..NUMBERS];
    [(6, 3), (7, 1), (8, 1), (9, 6), (10, 3), (14, 1)]
        .into_iter()
        .any(|(at, last)| place[at] > last)
}

/// Whether it has a kr or kb without Custom.
fn has_other_custom(desk: &DeskNumbers, camera: usize) -> bool {
    let custom = &desk.customs[2 * camera..][..2];
    desk.numbers[NUMBERS * camera + 9] != 6 && custom.iter().any(|k| k.to_bits() != 0)
}
