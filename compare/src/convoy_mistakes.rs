//! Mistakes near at hand in a call on a convoy, each put into a third statement of it, so that the stored list can be
//! held to catch them. The frames are the model's single calls.

use crate::convoy::{Called, Convoy, refused};
use model::Answer;
use model::convoy::{CUSTOMS, NUMBERS, PARTS};

#[derive(Clone, Copy, PartialEq)]
pub enum Mistake {
    NoMistake,
    Takes65,
    Refuses64,
    CountOf32Bits,
    CountOf8Bits,
    NoFrameIs18,
    SumOf64Bits,
    SumOf32Bits,
    EndIsOutside,
    OnePast,
    NoBytesPastTheEnd,
    NoBytesAtTheEnd,
    OffsetsAlone,
    SourceNotAsked,
    VNotAsked,
    LastNotAsked,
    SourcesOverlap,
    TouchingOverlap,
    NoBytesOverlap,
    SameNoBytesOverlap,
    YAlone,
    UNotCompared,
    VNotCompared,
    AcrossPlanes,
    NeighboursAlone,
    FirstAlone,
    LastNotCompared,
    EqualOffsetsAlone,
    LaterInsideAlone,
    EarlierInsideAlone,
    OverlapAtItsTurn,
    OutsideAtItsTurn,
    FramesBefore18,
    OneBefore18,
    OneBeforeAll,
    DoneWith18,
    SizesWith18,
    DoneFrom1,
    DoneAfterTheLast,
    DoneIsCount,
    Skips,
    LastRefusal,
    AllOrNothing,
    RefusedCleared,
    FromTheLast,
    NoSizes,
    FirstSettings,
    FirstRounding,
    FirstWindow,
    FirstCustoms,
    CustomsOfCustoms,
    FirstStrides,
    OffsetOfY,
    UAndVExchanged,
    SourceLast,
    LengthFirst,
    SourceFromStart,
    LengthIgnored,
    MissingNumbers0,
    MissingNumbers18,
    MissingCustoms0,
    MissingPartsAll,
    MissingParts18,
    MoreIs1,
    CodesOf8Bits,
    CustomIs1,
}

use Mistake::*;

pub const MISTAKES: [(Mistake, &str); 65] = [
    (Takes65, "65 frames are taken"),
    (Refuses64, "64 frames are refused"),
    (CountOf32Bits, "the count of frames cut to 32 bits"),
    (CountOf8Bits, "the count of frames cut to 8 bits"),
    (NoFrameIs18, "a convoy of no frame is refused"),
    (SumOf64Bits, "offset + length in 64 bits, which wrap"),
    (SumOf32Bits, "offset + length in 32 bits, which wrap"),
    (EndIsOutside, "a part that ends with its buffer is outside"),
    (OnePast, "a part one byte past its buffer is inside"),
    (NoBytesPastTheEnd, "a part of no bytes is always inside"),
    (
        NoBytesAtTheEnd,
        "no bytes at the end of a buffer are outside",
    ),
    (OffsetsAlone, "offsets alone are asked to be inside"),
    (SourceNotAsked, "source parts are not asked to be inside"),
    (VNotAsked, "V parts are not asked to be inside"),
    (
        LastNotAsked,
        "the last frame's parts are not asked to be inside",
    ),
    (SourcesOverlap, "source parts that overlap are refused"),
    (TouchingOverlap, "parts that touch overlap"),
    (NoBytesOverlap, "no bytes overlap the bytes around them"),
    (
        SameNoBytesOverlap,
        "no bytes overlap no bytes at the same place",
    ),
    (YAlone, "Y alone is asked for overlaps"),
    (UNotCompared, "U is not asked for overlaps"),
    (VNotCompared, "V is not asked for overlaps"),
    (AcrossPlanes, "parts of unlike planes overlap"),
    (
        NeighboursAlone,
        "neighbours in the list alone are asked for overlaps",
    ),
    (FirstAlone, "overlaps with the first frame alone"),
    (LastNotCompared, "overlaps of the last frame are not asked"),
    (EqualOffsetsAlone, "overlaps of equal offsets alone"),
    (
        LaterInsideAlone,
        "overlaps where the later frame's part starts inside the earlier's alone",
    ),
    (
        EarlierInsideAlone,
        "overlaps where the earlier frame's part starts inside the later's alone",
    ),
    (OverlapAtItsTurn, "an overlap is asked at its frame's turn"),
    (
        OutsideAtItsTurn,
        "a part outside is asked at its frame's turn",
    ),
    (FramesBefore18, "the first frame is asked before 18"),
    (OneBefore18, "1 of any frame before 18"),
    (OneBeforeAll, "1 of any frame before the first is begun"),
    (DoneWith18, "a place is told with 18"),
    (SizesWith18, "expected and received are told with 18"),
    (DoneFrom1, "the place counted from 1"),
    (
        DoneAfterTheLast,
        "the last frame's place where all are finished",
    ),
    (DoneIsCount, "the count of frames for the place"),
    (Skips, "a refused frame does not end the call"),
    (LastRefusal, "the last refusal is told"),
    (AllOrNothing, "no frame is converted where one is refused"),
    (RefusedCleared, "the refused frame's parts are cleared"),
    (FromTheLast, "the frames from the last to the first"),
    (NoSizes, "expected and received are not told"),
    (FirstSettings, "the settings of the first frame for all"),
    (FirstRounding, "the rounding of the first frame for all"),
    (FirstWindow, "the window of the first frame for all"),
    (FirstCustoms, "kr and kb of the first frame for all"),
    (CustomsOfCustoms, "kr and kb counted by Custom frames alone"),
    (FirstStrides, "the strides of the first frame for all"),
    (OffsetOfY, "the offset of Y for U and V"),
    (UAndVExchanged, "the parts of U and V exchanged"),
    (SourceLast, "the parts in the order Y, U, V, source"),
    (LengthFirst, "the length before the offset"),
    (SourceFromStart, "sources from the start of their buffer"),
    (LengthIgnored, "parts to the end of their buffer"),
    (MissingNumbers0, "missing numbers taken as 0"),
    (MissingNumbers18, "18 where numbers are missing"),
    (MissingCustoms0, "a missing kr or kb taken as 0"),
    (MissingPartsAll, "a missing part taken as all of its buffer"),
    (MissingParts18, "18 where numbers of parts are missing"),
    (MoreIs1, "1 where numbers are left over"),
    (CodesOf8Bits, "codes cut to 8 bits"),
    (CustomIs1, "1 for a Custom matrix"),
];

type Ends = (u128, u128);

/// The frames that a mistake still looks at: one more than there may be.
const MOST: u64 = 66;

/// Every frame's numbers from those of the first, at these places.
fn of_the_first<T: Copy>(all: &mut [T], each: usize, places: &[usize]) {
    for k in 1..all.len() / each {
        for place in places {
            all[each * k + place] = all[*place];
        }
    }
}

/// The convoy that a mistaken one reads.
fn as_read(mistake: Mistake, convoy: &Convoy) -> Convoy {
    let mut c = convoy.clone();
    let frames = c.count.min(64) as usize;
    let lengths = c.lent.each_ref().map(|buffer| buffer.len() as u64);
    match mistake {
        CountOf32Bits => c.count = u64::from(c.count as u32),
        CountOf8Bits => c.count = u64::from(c.count as u8),
        FirstSettings => of_the_first(&mut c.numbers, NUMBERS, &[3, 4, 5, 6, 7]),
        FirstRounding => of_the_first(&mut c.numbers, NUMBERS, &[11]),
        FirstWindow => of_the_first(&mut c.numbers, NUMBERS, &[12, 13, 14, 15]),
        FirstStrides => of_the_first(&mut c.numbers, NUMBERS, &[0, 8, 9, 10]),
        FirstCustoms => of_the_first(&mut c.customs, CUSTOMS, &[0, 1]),
        CustomsOfCustoms => {
            let mut next = 0;
            for k in 0..frames {
                let is_custom = c.numbers.get(NUMBERS * k + 6) == Some(&6);
                if is_custom && CUSTOMS * (k + 1) <= c.customs.len() {
                    c.customs
                        .copy_within(CUSTOMS * next..CUSTOMS * (next + 1), CUSTOMS * k);
                    next += 1;
                }
            }
        }
        OffsetOfY => (c.parts.chunks_exact_mut(PARTS)).for_each(|p| (p[4], p[6]) = (p[2], p[2])),
        UAndVExchanged => (c.parts.chunks_exact_mut(PARTS)).for_each(|p| p[4..].rotate_left(2)),
        SourceLast => (c.parts.chunks_exact_mut(PARTS)).for_each(|p| p.rotate_right(2)),
        LengthFirst => c.parts.chunks_exact_mut(2).for_each(|p| p.swap(0, 1)),
        SourceFromStart => c.parts.chunks_exact_mut(PARTS).for_each(|p| p[0] = 0),
        LengthIgnored => {
            for (i, part) in c.parts.chunks_exact_mut(2).enumerate() {
                part[1] = lengths[i % 4].saturating_sub(part[0]);
            }
        }
        MissingNumbers0 => c.numbers.resize(c.numbers.len().max(NUMBERS * frames), 0),
        MissingCustoms0 => c.customs.resize(c.customs.len().max(CUSTOMS * frames), 0.0),
        MissingPartsAll => {
            for i in c.parts.len()..PARTS * frames {
                c.parts
                    .push(if i % 2 == 0 { 0 } else { lengths[i / 2 % 4] });
            }
        }
        CodesOf8Bits => {
            for (i, number) in c.numbers.iter_mut().enumerate() {
                if matches!(i % NUMBERS, 3..=7 | 11) {
                    *number &= 255;
                }
            }
        }
        _ => {}
    }
    c
}

fn is_outside(mistake: Mistake, (offset, end): Ends, length: u128) -> bool {
    let is_empty = offset == end;
    let end = match mistake {
        SumOf64Bits => u128::from(end as u64),
        SumOf32Bits => u128::from(end as u32),
        OffsetsAlone => offset,
        _ => end,
    };
    match mistake {
        EndIsOutside => end >= length && !is_empty || end > length,
        OnePast => end > length + 1,
        NoBytesPastTheEnd => !is_empty && end > length,
        NoBytesAtTheEnd => end > length || is_empty && offset == length,
        _ => end > length,
    }
}

fn overlap(mistake: Mistake, earlier: Ends, later: Ends) -> bool {
    let (a, b) = (earlier, later);
    let share = a.0.max(b.0) < a.1.min(b.1);
    let starts_in = |one: Ends, other: Ends| other.0 <= one.0 && one.0 < other.1;
    match mistake {
        TouchingOverlap => share || a.0 < a.1 && b.0 < b.1 && (a.1 == b.0 || b.1 == a.0),
        NoBytesOverlap => a.0 < b.1 && b.0 < a.1,
        SameNoBytesOverlap => share || a == b,
        EqualOffsetsAlone => share && a.0 == b.0,
        LaterInsideAlone => share && starts_in(b, a),
        EarlierInsideAlone => share && starts_in(a, b),
        _ => share,
    }
}

/// Whether frame k has a part outside; and whether it overlaps one before it.
fn faults(m: Mistake, c: &Convoy, frames: usize, k: usize) -> (bool, bool) {
    let last = k + 1 == frames;
    let asked = |buffer: usize| match m {
        SourceNotAsked => buffer > 0,
        VNotAsked => buffer < 3,
        LastNotAsked => !last,
        _ => true,
    };
    let length = |buffer: usize| c.lent[buffer].len() as u128;
    let outside = (0..4).any(|b| asked(b) && is_outside(m, c.ends(k, b), length(b)));
    let planes = match m {
        YAlone => vec![1],
        UNotCompared => vec![1, 3],
        VNotCompared => vec![1, 2],
        SourcesOverlap => vec![0, 1, 2, 3],
        _ => vec![1, 2, 3],
    };
    let others = match m {
        NeighboursAlone => k.saturating_sub(1)..k,
        FirstAlone => 0..k.min(1),
        LastNotCompared if last => 0..0,
        _ => 0..k,
    };
    let overlaps = others.into_iter().any(|j| {
        let across = |plane: usize| match m {
            AcrossPlanes => vec![1, 2, 3],
            _ => vec![plane],
        };
        let mut pairs = planes
            .iter()
            .flat_map(|p| across(*p).into_iter().map(move |o| (*p, o)));
        pairs.any(|(plane, other)| overlap(m, c.ends(j, other), c.ends(k, plane)))
    });
    (outside, overlaps)
}

/// The call with this mistake.
pub fn called(m: Mistake, convoy: &Convoy) -> Called {
    let c = as_read(m, convoy);
    let before = c.lent.clone();
    let most = match m {
        Takes65 => 65,
        Refuses64 => 63,
        _ => 64,
    };
    let frames = c.count.min(MOST) as usize;
    let with_18 = |place: usize| {
        let mut answer = refused(18);
        if let (SizesWith18, Err(refusal)) = (m, &mut answer) {
            (refusal.expected, refusal.received) = (64, c.count);
        }
        let place = if m == DoneWith18 { place as u64 } else { 0 };
        (answer, place, before.clone())
    };
    let lacks = |list: usize, each: usize| list < each * frames;
    let faults: Vec<(bool, bool)> = (0..frames).map(|k| faults(m, &c, frames, k)).collect();
    let has_1 = (0..frames).find(|k| c.frame(*k).is_none());
    if let (OneBefore18, Some(place)) = (m, has_1) {
        return (refused(1), place as u64, before);
    }
    let asked_first = |(outside, overlaps): &(bool, bool)| {
        *outside && m != OutsideAtItsTurn || *overlaps && m != OverlapAtItsTurn
    };
    let broken = faults.iter().position(asked_first);
    let first_frame =
        |c: &Convoy| frames > 0 && faults[0] == (false, false) && single(c, 0).is_err();
    if m == FramesBefore18 && first_frame(&c) {
        return (single(&c, 0), 0, before);
    }
    if c.count > most || m == NoFrameIs18 && frames == 0 {
        return with_18(frames);
    }
    if m == MissingNumbers18 && lacks(c.numbers.len(), NUMBERS)
        || m == MissingParts18 && lacks(c.parts.len(), PARTS)
    {
        return with_18(0);
    }
    if let Some(place) = broken {
        return with_18(place);
    }
    if m == MoreIs1 && c.numbers.len() > NUMBERS * frames {
        return (refused(1), 0, before);
    }
    if let (OneBeforeAll, Some(place)) = (m, has_1) {
        return (refused(1), place as u64, before);
    }
    in_order(m, &c, &faults)
}

/// The bytes of a part that are there.
fn places(c: &Convoy, k: usize, buffer: usize) -> std::ops::Range<usize> {
    let (start, end) = c.ends(k, buffer);
    let length = c.lent[buffer].len() as u128;
    start.min(length) as usize..end.min(length) as usize
}

/// Frame k alone.
fn convert(c: &mut Convoy, k: usize) -> Answer {
    let Some(frame) = c.frame(k) else {
        return refused(1);
    };
    let [its_source, its_y, its_u, its_v] = [0, 1, 2, 3].map(|buffer| places(c, k, buffer));
    let [source, y, u, v] = &mut c.lent;
    let planes = (&mut y[its_y], &mut u[its_u], &mut v[its_v]);
    model::frame(&frame, &source[its_source], planes.0, planes.1, planes.2)
}

/// What frame k alone is answered.
fn single(c: &Convoy, k: usize) -> Answer {
    convert(&mut c.clone(), k)
}

fn in_order(m: Mistake, convoy: &Convoy, faults: &[(bool, bool)]) -> Called {
    let mut c = convoy.clone();
    let count = faults.len();
    let order: Vec<usize> = match m {
        FromTheLast => (0..count).rev().collect(),
        _ => (0..count).collect(),
    };
    let mut told: Option<(Answer, u64)> = None;
    for k in order {
        let (outside, overlaps) = faults[k];
        let mut answer = match m {
            OutsideAtItsTurn if outside => refused(18),
            OverlapAtItsTurn if overlaps => refused(18),
            CustomIs1 if c.numbers.get(NUMBERS * k + 6) == Some(&6) => refused(1),
            _ => convert(&mut c, k),
        };
        if answer.is_ok() {
            continue;
        }
        if m == RefusedCleared {
            for buffer in 1..4 {
                let places = places(&c, k, buffer);
                c.lent[buffer][places].fill(0);
            }
        }
        if let (NoSizes, Err(refusal)) = (m, &mut answer) {
            (refusal.expected, refusal.received) = (0, 0);
        }
        if m == LastRefusal || told.is_none() {
            told = Some((answer, k as u64));
        }
        if !matches!(m, Skips | LastRefusal) {
            break;
        }
    }
    let Some((answer, place)) = told else {
        let done = match m {
            DoneAfterTheLast => (count as u64).saturating_sub(1),
            _ => count as u64,
        };
        return (Ok(()), done, c.lent);
    };
    let place = match m {
        DoneFrom1 => place + 1,
        DoneIsCount => count as u64,
        _ => place,
    };
    let lent = if m == AllOrNothing {
        convoy.lent.clone()
    } else {
        c.lent
    };
    (answer, place, lent)
}
