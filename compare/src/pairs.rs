//! Two shift files of either form paired, RULES 13.1 and on: the same records, shuffled, some left out, some doubled, sizes
//! exchanged, bits flipped; and broken files. Every converter that has the call is held to the list of
//! conditions, to a report that is counted here crossing by crossing, and to what it must leave alone.

use crate::check::{Case, Converters, equal_answers, equal_bytes};
use crate::conditions;
use crate::converter::Converter;
use crate::random::Random;
use crate::request::hex;
use crate::shift::{ShiftForm, any_file, equal, fewer, file_of, good_record, having, some_form};
use crate::summary::crossing_of;
use ShiftForm::*;
use model::{Answer, Refusal};

const MOST: usize = 4_096;

/// What stands in the eighteen numbers before a call.
const BEFORE: [u64; 18] = [0xeeee_eeee_eeee_eeee; 18];

/// A call.
#[derive(Clone)]
pub struct Pairing {
    pub ours: Vec<u8>,
    pub theirs: Vec<u8>,
}

/// The answer, the file that is none (1 ours, 2 theirs, 0 neither), and the eighteen numbers after the call.
pub type Called = (Answer, u64, [u64; 18]);

fn side(record: &[u8], at: usize) -> u64 {
    u64::from(u16::from_le_bytes([record[at], record[at + 1]]))
}

/// The records of a file, and its form.
type Records<'a> = (ShiftForm, &'a [&'a [u8]]);

/// RULES 13.2, 13.3: kind, the four sizes, the place, the two samplings.
type Told = (u64, [u64; 4], [u64; 3], [u64; 2]);

/// RULES 13.2, 13.3.
fn difference((form, a): (ShiftForm, &[u8]), (other, b): (ShiftForm, &[u8])) -> Option<Told> {
    let size = |form, record| {
        let [sampling, ..] = conditions::settings_of(form, record);
        (side(record, 4), side(record, 6), u64::from(sampling))
    };
    let ((w, h, sampling), (other_w, other_h, other_sampling)) = (size(form, a), size(other, b));
    if size(form, a) != size(other, b) {
        let sizes = [w, h, other_w, other_h];
        return Some((1, sizes, [0; 3], [sampling, other_sampling]));
    }
    // The planes stand one behind the other, so the first byte that differs in Y, U, V is the first of all.
    let (a, b) = (
        &a[conditions::header(form)..],
        &b[conditions::header(other)..],
    );
    let at = (0..a.len()).find(|at| a[*at] != b[*at])? as u64;
    let (luma, half) = (w * h, w.div_ceil(2));
    let rows = if sampling == 1 { h } else { h.div_ceil(2) };
    let chroma = half * rows;
    let (plane, from, width) = match at {
        at if at < luma => (0, 0, w),
        at if at < luma + chroma => (1, luma, half),
        _ => (2, luma + chroma, half),
    };
    let place = [plane, (at - from) / width, (at - from) % width];
    Some((2, [0; 4], place, [0; 2]))
}

/// RULES 10.7, 13.1 to 13.3: the records of both files in one list, by crossing, by their turn in their
/// file's records of it, and ours first. A pair is two that stand side by side there.
fn report((form, ours): Records, (other, theirs): Records) -> [u64; 18] {
    let turns = |records: &[&[u8]], file: u8| {
        let mut all = Vec::new();
        let mut seen = std::collections::HashMap::new();
        for (k, record) in records.iter().enumerate() {
            let turn = seen.entry(crossing_of(record)).or_insert(0u64);
            all.push((crossing_of(record), *turn, file, k));
            *turn += 1;
        }
        all
    };
    let mut all = [turns(ours, 0), turns(theirs, 1)].concat();
    all.sort();
    let mut numbers = [0; 18];
    let mut rest = &all[..];
    while let Some((&(crossing, turn, file, i), others)) = rest.split_first() {
        rest = others;
        let Some(&(_, _, _, j)) = rest
            .first()
            .filter(|next| (next.0, next.1) == (crossing, turn))
        else {
            numbers[2 + usize::from(file)] += 1;
            continue;
        };
        rest = &rest[1..];
        let found = difference((form, ours[i]), (other, theirs[j]));
        let Some((kind, sizes, place, samplings)) = found else {
            numbers[0] += 1;
            continue;
        };
        numbers[1] += 1;
        if numbers[1] == 1 {
            numbers[4..8].copy_from_slice(&[kind, crossing.into(), i as u64, j as u64]);
            numbers[8..12].copy_from_slice(&sizes);
            numbers[12..15].copy_from_slice(&place);
            numbers[15..17].copy_from_slice(&samplings);
        }
    }
    numbers
}

impl Pairing {
    pub fn call(&self, converter: &dyn Converter) -> Result<Called, String> {
        let name = converter.name();
        let (ours, theirs) = (self.ours.clone(), self.theirs.clone());
        let mut numbers = BEFORE;
        let (answer, broken) = converter.shift_pairs(&ours, &theirs, &mut numbers);
        equal_bytes(name, "ours,", &ours, &self.ours)?;
        equal_bytes(name, "theirs,", &theirs, &self.theirs)?;
        Ok((answer, broken, numbers))
    }

    pub fn should(&self) -> Called {
        let ours = conditions::records_of_any(&self.ours);
        let theirs = conditions::records_of_any(&self.theirs);
        let broken = |which| {
            let (number, expected, received) = (15, 0, 0);
            let refusal = Refusal {
                number,
                expected,
                received,
            };
            (Err(refusal), which, BEFORE)
        };
        match (ours, theirs) {
            (None, _) => broken(1),
            (_, None) => broken(2),
            (Some((form, ours)), Some((other, theirs))) => {
                (Ok(()), 0, report((form, &ours), (other, &theirs)))
            }
        }
    }
}

impl Case for Pairing {
    fn check(&self, converters: &Converters) -> Result<u8, String> {
        let (should, should_be_broken, should_tell) = self.should();
        for converter in having(converters) {
            let name = converter.name();
            let (answer, broken, numbers) = self.call(converter)?;
            equal_answers(name, &answer, &should)?;
            equal(name, "the file that is none", broken, should_be_broken)?;
            equal(name, "the report", numbers, should_tell)?;
        }
        Ok(should.map_or_else(|refusal| refusal.number, |()| 0))
    }

    fn smaller(&self) -> Vec<Pairing> {
        let mut all = Vec::new();
        let files = [&self.ours, &self.theirs].map(|file| conditions::records_of_any(file));
        let with = |ours: Vec<u8>, theirs: Vec<u8>| Pairing { ours, theirs };
        let without = |form: ShiftForm, records: &[&[u8]], k: usize| {
            let mut others = records.to_vec();
            others.remove(k);
            conditions::file_of(form, &others)
        };
        if let Some((form, records)) = &files[0] {
            let few = (0..records.len().min(64)).map(|k| without(*form, records, k));
            all.extend(few.map(|ours| with(ours, self.theirs.clone())));
        }
        if let Some((form, records)) = &files[1] {
            let few = (0..records.len().min(64)).map(|k| without(*form, records, k));
            all.extend(few.map(|theirs| with(self.ours.clone(), theirs)));
        }
        all.extend((fewer(&self.ours).into_iter()).map(|ours| with(ours, self.theirs.clone())));
        all.extend((fewer(&self.theirs).into_iter()).map(|theirs| with(self.ours.clone(), theirs)));
        all
    }

    fn text(&self) -> String {
        format!("shift-pairs {} {}", hex(&self.ours), hex(&self.theirs))
    }

    fn told(&self) -> Option<&'static str> {
        let (answer, _, numbers) = self.should();
        answer.is_ok().then_some(match numbers[4] {
            0 => "none differs",
            1 if numbers[15] != numbers[16] => "samplings",
            1 => "sizes",
            _ => match numbers[12] {
                0 => "a place in Y",
                1 => "in U",
                _ => "in V",
            },
        })
    }
}

/// Of few crossings, so that many are equal; now and then of many.
fn records(random: &mut Random, form: ShiftForm, count: u64, side: u32) -> Vec<Vec<u8>> {
    let different = random.pick(&[1, 2, 3, 8, 1_000]);
    let base = random.pick(&[0, 1_400, u32::MAX - 1_000]);
    let record = |_| {
        let mut record = good_record(random, form, side);
        let crossing = base + random.below(different) as u32;
        record[..4].copy_from_slice(&crossing.to_le_bytes());
        record
    };
    (0..count).map(record).collect()
}

fn shuffle<T>(random: &mut Random, list: &mut [T]) {
    for k in (1..list.len()).rev() {
        list.swap(k, random.below(k as u64 + 1) as usize);
    }
}

/// Shuffled so that the records of each crossing keep their order: the pairs stay those that they were.
fn shuffle_crossings(random: &mut Random, records: &mut [Vec<u8>]) {
    let mut order: Vec<u32> = records.iter().map(|record| crossing_of(record)).collect();
    shuffle(random, &mut order);
    let mut from = records.to_vec();
    for (crossing, record) in order.into_iter().zip(records) {
        let of_crossing = from.iter().position(|one| crossing_of(one) == crossing);
        *record = from.remove(of_crossing.expect("as many as there were"));
    }
}

/// w and h exchanged, which leaves it as long.
fn exchange_sides(record: &mut [u8]) {
    let (w, h) = record[4..8].split_at_mut(2);
    w.swap_with_slice(h);
}

/// One bit of a byte of its planes, the first and the last byte of a plane as often as all others.
fn flip(random: &mut Random, form: ShiftForm, record: &mut [u8]) {
    let (w, h) = (side(record, 4) as usize, side(record, 6) as usize);
    let y = conditions::header(form);
    let (u, last) = (y + w * h, record.len() - 1);
    let v = u + (record.len() - u) / 2;
    let any = y + random.below((record.len() - y) as u64) as usize;
    let at = random.pick(&[y, u - 1, u, v - 1, v, last, any, any, any, any, any, any]);
    record[at] ^= 1 << random.below(8);
}

/// A record with settings in the other sampling, of which as many planes' bytes as before are kept; or with other
/// codes of range, matrix and transfer, which are no part of equality.
fn resample(random: &mut Random, record: &mut Vec<u8>) {
    if random.one_in(2) {
        for (k, last) in [(9, 1), (10, 6), (11, 3)] {
            record[k] = random.pick(&[255, 0, last]);
        }
        return;
    }
    record[8] ^= 1;
    let (w, h) = (side(record, 4) as u32, side(record, 6) as u32);
    let length = conditions::record_length(WithSettings, record[8], w, h);
    record.resize(length as usize, 0x80);
}

/// Records of ours in a file of the other form, where they have a place in it.
fn in_form(from: ShiftForm, to: ShiftForm, records: &[Vec<u8>]) -> Vec<Vec<u8>> {
    let moved = |record: &Vec<u8>| {
        let (start, planes) = record.split_at(conditions::header(from));
        let settings = conditions::settings_of(from, record);
        let four = match to {
            WithSettings => &settings[..],
            WithoutSettings => &[],
        };
        (to == WithSettings || settings[0] == 0).then(|| [&start[..8], four, planes].concat())
    };
    records.iter().filter_map(moved).collect()
}

/// One of the ways in which theirs may come to differ from ours.
fn change(random: &mut Random, form: ShiftForm, theirs: &mut Vec<Vec<u8>>) {
    if theirs.is_empty() {
        theirs.push(good_record(random, form, 3));
        return;
    }
    let k = random.below(theirs.len() as u64) as usize;
    if form == WithSettings && random.one_in(3) {
        return resample(random, &mut theirs[k]);
    }
    match random.below(10) {
        0..=3 => flip(random, form, &mut theirs[k]),
        4 => exchange_sides(&mut theirs[k]),
        5 => drop(theirs.remove(k)),
        6 => theirs.insert(k, theirs[k].clone()),
        7 => shuffle(random, theirs),
        8 => {
            let crossing = random.next() as u32;
            theirs[k][..4].copy_from_slice(&crossing.to_le_bytes());
        }
        _ => {
            let mut other = good_record(random, form, 9);
            other[..4].copy_from_slice(&theirs[k][..4]);
            theirs[k] = other;
        }
    }
}

/// Each on files without settings, and one on files of either form.
impl Pairing {
    /// Theirs is ours shuffled, with some changes.
    pub fn changed(random: &mut Random) -> Pairing {
        Pairing::changed_of(random, WithoutSettings, WithoutSettings)
    }

    /// The same with files of either form.
    pub fn mixed(random: &mut Random) -> Pairing {
        let (form, other) = (some_form(random), some_form(random));
        Pairing::changed_of(random, form, other)
    }

    fn changed_of(random: &mut Random, form: ShiftForm, other: ShiftForm) -> Pairing {
        let count = random.pick(&[1, 2, 3, 5, 8, 20]);
        let ours = records(random, form, count, 9);
        let mut theirs = in_form(form, other, &ours);
        if random.one_in(2) {
            shuffle_crossings(random, &mut theirs);
        }
        for _ in 0..random.pick(&[0, 1, 1, 1, 2, 3, 6]) {
            change(random, other, &mut theirs);
        }
        let (ours, theirs) = (file_of(form, &ours), file_of(other, &theirs));
        match random.one_in(2) {
            true => Pairing { ours, theirs },
            false => Pairing {
                ours: theirs,
                theirs: ours,
            },
        }
    }

    /// A record of any size up to 40 and its like with a few bits flipped, close together or anywhere: rows of
    /// every length, with every tail.
    pub fn flipped(random: &mut Random) -> Pairing {
        Pairing::flipped_of(random, WithoutSettings)
    }

    pub fn flipped_with_settings(random: &mut Random) -> Pairing {
        Pairing::flipped_of(random, WithSettings)
    }

    fn flipped_of(random: &mut Random, form: ShiftForm) -> Pairing {
        let mut record = good_record(random, form, 40);
        if random.one_in(10) {
            let long = random.pick(&[255u16, 256, 257, 1_920, 16_383, 16_384]);
            let settings = record[8..conditions::header(form)].to_vec();
            let sampling = settings.first().copied().unwrap_or(0);
            record.truncate(4);
            record.extend(long.to_le_bytes());
            record.extend(2u16.to_le_bytes());
            record.extend(&settings);
            let length = conditions::record_length(form, sampling, long.into(), 2) as usize;
            let planes = random.bytes(length - record.len());
            record.extend(planes);
        }
        let mut other = record.clone();
        for _ in 0..random.from(1, 3) {
            flip(random, form, &mut other);
        }
        Pairing {
            ours: file_of(form, &[record]),
            theirs: file_of(form, &[other]),
        }
    }

    /// Files of which one or both may be broken.
    pub fn any(random: &mut Random) -> Pairing {
        Pairing::any_of(random, WithoutSettings, WithoutSettings)
    }

    /// The same with files of either form.
    pub fn any_mixed(random: &mut Random) -> Pairing {
        let (form, other) = (some_form(random), some_form(random));
        Pairing::any_of(random, form, other)
    }

    fn any_of(random: &mut Random, form: ShiftForm, other: ShiftForm) -> Pairing {
        let good = |random: &mut Random, form: ShiftForm| {
            let count = random.below(4);
            file_of(form, &records(random, form, count, 4))
        };
        let (ours, theirs) = match random.below(3) {
            0 => (any_file(random, form), good(random, other)),
            1 => (good(random, form), any_file(random, other)),
            _ => (any_file(random, form), any_file(random, other)),
        };
        Pairing { ours, theirs }
    }

    /// As many records as there may be.
    pub fn full(random: &mut Random) -> Pairing {
        Pairing::full_of(random, WithoutSettings, WithoutSettings)
    }

    pub fn full_mixed(random: &mut Random) -> Pairing {
        let (form, other) = (some_form(random), some_form(random));
        Pairing::full_of(random, form, other)
    }

    fn full_of(random: &mut Random, form: ShiftForm, other: ShiftForm) -> Pairing {
        let ours = records(random, form, MOST as u64, 1);
        let mut theirs = in_form(form, other, &ours);
        match random.below(3) {
            0 => theirs.reverse(),
            1 => shuffle(random, &mut theirs),
            _ => shuffle_crossings(random, &mut theirs),
        }
        for _ in 0..random.below(3) {
            change(random, other, &mut theirs);
        }
        theirs.truncate(MOST);
        Pairing {
            ours: file_of(form, &ours),
            theirs: file_of(other, &theirs),
        }
    }
}

/// One bit flipped at each position of small frames, all bits of it, in a file of three records of which
/// it is the first, second or third; with settings in 4:2:2.
pub fn every_bit(form: ShiftForm, converters: &Converters) -> Result<String, String> {
    let mut random = Random::new(1, 25, 0);
    let mut flips = 0;
    let settings = match form {
        WithoutSettings => &[][..],
        WithSettings => &[1, 0, 255, 3],
    };
    let sampling = settings.first().copied().unwrap_or(0);
    let header = conditions::header(form);
    for (w, h) in [
        (1, 1),
        (2, 1),
        (1, 2),
        (3, 2),
        (2, 3),
        (7, 3),
        (8, 3),
        (9, 3),
        (15, 2),
        (16, 2),
        (17, 5),
        (24, 1),
        (33, 3),
    ] {
        let records: Vec<Vec<u8>> = (0..3u32)
            .map(|k| {
                let mut record = (2 - k).to_le_bytes().to_vec();
                record.extend([w as u8, 0, h as u8, 0]);
                record.extend(settings);
                let length = conditions::record_length(form, sampling, w, h) as usize;
                record.extend(random.bytes(length - header));
                record
            })
            .collect();
        for k in 0..3 {
            for bit in 0..8 * (records[k].len() - header) {
                let mut others = records.clone();
                others[k][header + bit / 8] ^= 1 << (bit % 8);
                let pairing = Pairing {
                    ours: file_of(form, &records),
                    theirs: file_of(form, &others),
                };
                let told = pairing.should().2;
                equal("the list", "pairs that differ", told[1], 1)?;
                pairing
                    .check(converters)
                    .map_err(|wrong| format!("{wrong}\n{}", pairing.text()))?;
                flips += 1;
            }
        }
    }
    let of = match form {
        WithoutSettings => "",
        WithSettings => " with settings, in 4:2:2,",
    };
    Ok(format!(
        "each bit of small frames{of} flipped: {flips} equal"
    ))
}
