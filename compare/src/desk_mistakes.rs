//! The front desk once more and apart from the model: on the numbers of RULES 10.10 themselves, by the ends of the
//! parts, with single band calls of any converter on copies of them. And the same with a mistake near at hand, so that
//! the stored list can be held to catch it.

use crate::check::equal_answers;
use crate::conditions;
use crate::converter::{Converter, Opening};
use crate::convoy::{CODES, Ends, frame_by, refused, share};
use crate::desk::Ask;
use crate::request::{BandRequest, opening};
use model::desk::{CUSTOMS, DeskNumbers, FIRST, NUMBERS, PARTS, Told};
use model::{Answer, FrameState};

#[derive(Clone, Copy, Debug, PartialEq)]
pub enum Mistake {
    NoMistake,
    FromZero,
    NotMoved,
    ServedFirstAgain,
    OneOn,
    Backward,
    NotPast31,
    SecondWaiting,
    FirstOffered,
    LastOffered,
    OfferedIsFirst,
    After31Is32,
    FirstAbove31Is0,
    NoneMoves,
    NoneReduces,
    AllServed,
    RefusedPassedOver,
    RefusedKeepsTurn,
    Refused18KeepsTurn,
    RefusedStays,
    Refused18Stays,
    RefusedCloses,
    RefusedNotTold,
    CameraFrom1,
    NoneIsCamera0,
    NoSizes,
    SizesWith18,
    NumberKept,
    PartsKept,
    FreedEarly,
    PlaceNotCleared,
    Modulo32,
    Refuses31,
    WaitingBeforeNobody,
    PartsBeforeWaiting,
    PartsBeforeNobody,
    PartsBeforeInUse,
    PartsBeforeNumber,
    SizeBeforeParts,
    SizeBeforeInUse,
    CodesBeforeParts,
    CodesFirst,
    CarriedNotCompared,
    YAlone,
    UNotCompared,
    VNotCompared,
    AcrossBuffers,
    OwnParts,
    NoBytesOverlap,
    TouchingOverlap,
    WaitingAlone,
    LowerAlone,
    EqualOffsetsAlone,
    NewInsideAlone,
    OpenInsideAlone,
    OverlapNotAsked,
    SumOf64Bits,
    SumOf32Bits,
    EndIsOutside,
    OnePast,
    NoBytesPastTheEnd,
    NoBytesAtTheEnd,
    OutsideNotAsked,
    CarriedNotAsked,
    LengthOfY,
    OfferNotAsked,
    OfferReplaces,
    RowsAtOffer,
    StepNotAsked,
    CarriedNotAskedAtStep,
    SourceAgainstY,
    BandBeforeParts,
    OverlapAtStep,
    OffsetOfY,
    UAndVExchanged,
    SourceFromStart,
    CarriedFromStart,
    LengthIgnored,
    CarriedLost,
    CarriedNotWritten,
    DoneLost,
    RoundingLost,
    WindowLost,
    CustomLost,
    CustomOfFirst,
    CustomKept,
    StrideOfRow,
    AllRowsThatRemain,
    AnyKindOpen,
    AnyKindWaits,
    NoRowLeftIsFree,
    CodesOf8Bits,
    CodesLast,
    NotWrittenAnew,
    RefusedWrites,
}

use Mistake::*;

pub const MISTAKES: [(Mistake, &str); 94] = [
    (FromZero, "every step asks camera 0 first"),
    (NotMoved, "the camera asked first is never moved"),
    (ServedFirstAgain, "the camera served is asked first again"),
    (OneOn, "each step moves the camera asked first by one"),
    (Backward, "the round goes down"),
    (NotPast31, "the round ends with camera 31"),
    (SecondWaiting, "the first camera that waits is passed over"),
    (
        FirstOffered,
        "bands are served in the order of their offers",
    ),
    (LastOffered, "the band offered last is served first"),
    (
        OfferedIsFirst,
        "an offer makes its camera the one asked first",
    ),
    (After31Is32, "32 is the camera after 31"),
    (FirstAbove31Is0, "a camera asked first above 31 counts as 0"),
    (
        NoneMoves,
        "a step with none waiting moves the camera asked first",
    ),
    (
        NoneReduces,
        "a step with none waiting writes the camera asked first modulo 32",
    ),
    (AllServed, "a step serves all that wait"),
    (
        RefusedPassedOver,
        "a refused band uses no step: the next is served",
    ),
    (RefusedKeepsTurn, "a refused band keeps its camera's turn"),
    (
        Refused18KeepsTurn,
        "a band refused with 18 keeps its camera's turn",
    ),
    (RefusedStays, "a refused band stays"),
    (Refused18Stays, "a band refused with 18 stays"),
    (RefusedCloses, "a refused band closes its frame"),
    (RefusedNotTold, "the camera of a refused band is not told"),
    (CameraFrom1, "the camera is told counted from 1"),
    (NoneIsCamera0, "none waiting is told as camera 0"),
    (NoSizes, "expected and received are not told"),
    (SizesWith18, "expected and received are told with 18"),
    (NumberKept, "a finished frame's number is kept"),
    (PartsKept, "a finished frame's parts are still taken"),
    (FreedEarly, "the number is free before the last row"),
    (PlaceNotCleared, "a freed place keeps its numbers"),
    (Modulo32, "camera numbers count modulo 32"),
    (Refuses31, "camera 31 is refused"),
    (WaitingBeforeNobody, "22 of the number modulo 32 before 21"),
    (PartsBeforeWaiting, "18 before 22"),
    (PartsBeforeNobody, "18 before 21 of an offer"),
    (PartsBeforeInUse, "18 before 23"),
    (PartsBeforeNumber, "18 before 21 of an opening"),
    (SizeBeforeParts, "2, 3, 4 and 14 before 18"),
    (SizeBeforeInUse, "2, 3, 4 and 14 before 23"),
    (CodesBeforeParts, "1 before 18"),
    (CodesFirst, "1 first of all"),
    (
        CarriedNotCompared,
        "carried parts are not asked for overlaps",
    ),
    (YAlone, "Y alone is asked for overlaps"),
    (UNotCompared, "U is not asked for overlaps"),
    (VNotCompared, "V is not asked for overlaps"),
    (AcrossBuffers, "parts of unlike buffers overlap"),
    (OwnParts, "a frame's own parts of unlike buffers overlap"),
    (NoBytesOverlap, "no bytes overlap the bytes around them"),
    (TouchingOverlap, "parts that touch overlap"),
    (
        WaitingAlone,
        "frames with a band waiting alone are asked for overlaps",
    ),
    (
        LowerAlone,
        "cameras of lower numbers alone are asked for overlaps",
    ),
    (EqualOffsetsAlone, "overlaps of equal offsets alone"),
    (
        NewInsideAlone,
        "overlaps where the new part starts inside the open one's alone",
    ),
    (
        OpenInsideAlone,
        "overlaps where the open part starts inside the new one's alone",
    ),
    (OverlapNotAsked, "overlaps are not asked"),
    (SumOf64Bits, "offset + length in 64 bits, which wrap"),
    (SumOf32Bits, "offset + length in 32 bits, which wrap"),
    (EndIsOutside, "a part that ends with its buffer is outside"),
    (OnePast, "a part one byte past its buffer is inside"),
    (NoBytesPastTheEnd, "a part of no bytes is always inside"),
    (
        NoBytesAtTheEnd,
        "no bytes at the end of a buffer are outside",
    ),
    (
        OutsideNotAsked,
        "an opening's parts are not asked to be inside",
    ),
    (
        CarriedNotAsked,
        "an opening's carried part is not asked to be inside",
    ),
    (LengthOfY, "all parts of an opening against the length of Y"),
    (OfferNotAsked, "an offered band is not asked to be inside"),
    (OfferReplaces, "an offer replaces the band that waits"),
    (RowsAtOffer, "5 at the offer"),
    (StepNotAsked, "18 is not asked at a step"),
    (
        CarriedNotAskedAtStep,
        "the carried part is not asked to be inside at a step",
    ),
    (SourceAgainstY, "the band's part against the length of Y"),
    (BandBeforeParts, "18 of a step after the band call's own"),
    (OverlapAtStep, "18 at a step where open frames overlap"),
    (OffsetOfY, "the offset of Y for U and V"),
    (UAndVExchanged, "the parts of U and V exchanged"),
    (SourceFromStart, "bands from the start of the source"),
    (
        CarriedFromStart,
        "carried rows from the start of their buffer",
    ),
    (LengthIgnored, "parts to the end of their buffer"),
    (CarriedLost, "the carried row is not handed on"),
    (CarriedNotWritten, "the carried row is not written"),
    (DoneLost, "the rows done are not handed on"),
    (RoundingLost, "the rounding of the opening is lost"),
    (WindowLost, "the window of the opening is lost"),
    (CustomLost, "kr and kb of the opening are lost"),
    (CustomOfFirst, "kr and kb of camera 0 for all"),
    (CustomKept, "kr and kb are kept without Custom"),
    (StrideOfRow, "the band's stride is its row's length"),
    (AllRowsThatRemain, "a band has all rows that remain"),
    (AnyKindOpen, "any first number but 0 is a frame"),
    (
        AnyKindWaits,
        "any first number above 1 is a band that waits",
    ),
    (NoRowLeftIsFree, "a frame without rows left is no frame"),
    (CodesOf8Bits, "codes cut to 8 bits"),
    (
        CodesLast,
        "a code without a meaning is the last of its kind",
    ),
    (
        NotWrittenAnew,
        "codes without a meaning stay at a place that is written",
    ),
    (RefusedWrites, "a refused offer writes its place anew"),
];

/// The last code of each setting, in the order of `CODES`.
const LAST: [u32; 6] = [3, 1, 1, 6, 3, 1];

/// The places among a camera's numbers; those of the description follow.
const KIND: usize = 0;
const DONE: usize = 1;
const ROWS: usize = 2;
const STRIDE: usize = 3;
const DESCRIPTION: usize = 4;

/// What stands at a camera's number.
#[derive(Clone)]
struct Place {
    numbers: [u32; NUMBERS],
    customs: [f32; CUSTOMS],
    parts: [u64; PARTS],
}

fn ends(parts: &[u64], k: usize) -> Ends {
    let [offset, length] = [parts[2 * k], parts[2 * k + 1]].map(u128::from);
    (offset, offset + length)
}

/// RULES 10.1: the frame that ten, eleven or fifteen numbers describe, and these as fifteen. None: 1.
pub fn frame_described(described: &[u32], custom: [f32; 2]) -> Option<(FrameState, [u32; 15])> {
    let mut all = described.to_vec();
    match all.len() {
        10 => all.extend([0, 0, 0, all[0], all[1]]),
        11 => all.extend([0, 0, all[0], all[1]]),
        _ => {}
    }
    let all: [u32; 15] = all.try_into().ok()?;
    let mut numbers = [0; 16];
    numbers[1..].copy_from_slice(&all);
    let frame = frame_by(&numbers, custom)?;
    Some((opening(&frame), all))
}

impl Place {
    fn of(desk: &DeskNumbers, camera: u32) -> Place {
        let c = camera as usize;
        let has = "a camera's numbers";
        Place {
            numbers: *desk.numbers[NUMBERS * c..].first_chunk().expect(has),
            customs: *desk.customs[CUSTOMS * c..].first_chunk().expect(has),
            parts: *desk.parts[PARTS * c..].first_chunk().expect(has),
        }
    }

    const FREE: Place = Place {
        numbers: [0; NUMBERS],
        customs: [0.0; CUSTOMS],
        parts: [0; PARTS],
    };

    fn put(&self, desk: &mut DeskNumbers, camera: u32) {
        let c = camera as usize;
        desk.numbers[NUMBERS * c..][..NUMBERS].copy_from_slice(&self.numbers);
        desk.customs[CUSTOMS * c..][..CUSTOMS].copy_from_slice(&self.customs);
        desk.parts[PARTS * c..][..PARTS].copy_from_slice(&self.parts);
    }

    /// Codes without a meaning as 0, and kr and kb as 0 without Custom.
    fn known(&self, m: Mistake) -> Place {
        let mut place = self.clone();
        for (code, last) in CODES.into_iter().zip(LAST) {
            // Convoys have the stride of their source before the description.
            let code = &mut place.numbers[DESCRIPTION + code - 1];
            if m == CodesOf8Bits {
                *code &= 255;
            }
            if *code > last {
                *code = if m == CodesLast { last } else { 0 };
            }
        }
        if place.numbers[DESCRIPTION + 5] != 6 && m != CustomKept {
            place.customs = [0.0; CUSTOMS];
        }
        place
    }

    fn state(&self, m: Mistake) -> FrameState {
        let place = self.known(m);
        let described = frame_described(&place.numbers[DESCRIPTION..], place.customs);
        let (state, _) = described.expect("codes with a meaning");
        FrameState {
            done: self.numbers[DONE],
            ..state
        }
    }

    /// How it is written: known, unless a mistake leaves it.
    fn anew(&self, m: Mistake) -> Place {
        match m {
            NotWrittenAnew => self.clone(),
            _ => self.known(m),
        }
    }
}

fn is_open(m: Mistake, desk: &DeskNumbers, camera: u32) -> bool {
    let place = Place::of(desk, camera);
    match (m, place.numbers[KIND]) {
        (AnyKindOpen, kind) => kind != 0,
        (AnyKindWaits, kind) if kind > 2 => true,
        (NoRowLeftIsFree, 1) => place.numbers[DONE] < place.numbers[DESCRIPTION + 1],
        (_, kind) => kind == 1 || kind == 2,
    }
}

fn is_waiting(m: Mistake, desk: &DeskNumbers, camera: u32) -> bool {
    let kind = Place::of(desk, camera).numbers[KIND];
    match m {
        AnyKindWaits => kind > 1,
        _ => kind == 2,
    }
}

fn is_outside(m: Mistake, (offset, end): Ends, length: u64) -> bool {
    let (is_empty, length) = (offset == end, u128::from(length));
    let end = match m {
        SumOf64Bits => u128::from(end as u64),
        SumOf32Bits => u128::from(end as u32),
        _ => end,
    };
    match m {
        EndIsOutside => end > length || end == length && !is_empty,
        OnePast => end > length + 1,
        NoBytesPastTheEnd => !is_empty && end > length,
        NoBytesAtTheEnd => end > length || is_empty && offset == length,
        _ => end > length,
    }
}

fn overlap(m: Mistake, open: Ends, new: Ends) -> bool {
    let starts_in = |one: Ends, other: Ends| other.0 <= one.0 && one.0 < other.1;
    match m {
        TouchingOverlap => {
            let has_bytes = open.0 < open.1 && new.0 < new.1;
            share(open, new) || has_bytes && (open.1 == new.0 || new.1 == open.0)
        }
        NoBytesOverlap => open.0 < new.1 && new.0 < open.1,
        EqualOffsetsAlone => share(open, new) && open.0 == new.0,
        NewInsideAlone => share(open, new) && starts_in(new, open),
        OpenInsideAlone => share(open, new) && starts_in(open, new),
        OverlapNotAsked => false,
        _ => share(open, new),
    }
}

/// Whether a frame's parts of Y, U, V and carried rows overlap another's.
fn frames_overlap(m: Mistake, open: &[Ends; 4], new: &[Ends; 4]) -> bool {
    let compared = |b: usize| match m {
        CarriedNotCompared => b < 3,
        YAlone => b == 0,
        UNotCompared => b != 1,
        VNotCompared => b != 2,
        _ => true,
    };
    (0..4).any(|b| {
        let mut others = (0..4).filter(|o| *o == b || m == AcrossBuffers);
        compared(b) && others.any(|o| overlap(m, open[o], new[b]))
    })
}

fn told(m: Mistake, answer: &Answer, served: Option<u32>) -> Told {
    let [number, mut expected, mut received] = answer.map_or_else(
        |refusal| [refusal.number.into(), refusal.expected, refusal.received],
        |()| [0; 3],
    );
    match (m, number) {
        (NoSizes, _) => (expected, received) = (0, 0),
        (SizesWith18, 18) => (expected, received) = (1, 2),
        _ => {}
    }
    let [is_served, camera] = match (m, served) {
        (NoneIsCamera0, None) => [1, 0],
        (RefusedNotTold, Some(_)) if number != 0 => [0, 0],
        (_, None) => [0, 0],
        (CameraFrom1, Some(camera)) => [1, u64::from(camera) + 1],
        (_, Some(camera)) => [1, u64::from(camera)],
    };
    [number, expected, received, is_served, camera]
}

/// The desk with this mistake. Beside the numbers it keeps what only a mistake looks at: the cameras that wait in the
/// order of their offers, and the parts of finished frames.
pub struct Second<'a> {
    mistake: Mistake,
    converter: &'a dyn Converter,
    offered: Vec<u32>,
    finished: Vec<[Ends; 4]>,
}

impl<'a> Second<'a> {
    pub fn new(mistake: Mistake, converter: &'a dyn Converter, desk: &DeskNumbers) -> Second<'a> {
        Second {
            mistake,
            converter,
            offered: (0..32).filter(|c| is_waiting(mistake, desk, *c)).collect(),
            finished: Vec::new(),
        }
    }

    /// What is called comes to. An error: a band call is answered otherwise than the list of conditions says.
    pub fn ask(
        &mut self,
        desk: &mut DeskNumbers,
        ask: &Ask,
        lent: [&mut [u8]; 5],
    ) -> Result<Told, String> {
        match ask {
            Ask::Open(opening) => Ok(self.open(desk, opening)),
            Ask::Offer {
                camera,
                band,
                place,
            } => Ok(self.offer(desk, *camera, *band, *place)),
            Ask::Step { .. } => self.step(desk, lent),
            Ask::Deliver { .. } => Ok([0; 5]),
        }
    }

    fn open(&self, desk: &mut DeskNumbers, o: &Opening) -> Told {
        let m = self.mistake;
        let camera = if m == Modulo32 {
            o.camera % 32
        } else {
            o.camera
        };
        let above = camera > if m == Refuses31 { 30 } else { 31 };
        let in_use = !above && is_open(m, desk, camera);
        let new = [0, 1, 2, 3].map(|k| ends(&o.parts, k));
        let outside = (0..4).any(|b| {
            let length = o.lengths[if m == LengthOfY { 0 } else { b }];
            let asked = m != OutsideNotAsked && (m != CarriedNotAsked || b < 3);
            asked && is_outside(m, new[b], length)
        });
        let compared = |c: &u32| match m {
            WaitingAlone => is_waiting(m, desk, *c),
            LowerAlone => *c < camera,
            _ => true,
        };
        let of_place = |c| [1, 2, 3, 4].map(|k| ends(&Place::of(desk, c).parts, k));
        let open = (0..32).filter(|c| is_open(m, desk, *c) && compared(c));
        let finished = self.finished.iter().copied().filter(|_| m == PartsKept);
        let mut taken = open.map(of_place).chain(finished);
        let own = m == OwnParts && (0..4).any(|b| (0..b).any(|other| share(new[b], new[other])));
        let overlaps = own || taken.any(|open| frames_overlap(m, &open, &new));

        let frame = frame_described(&o.described, o.custom);
        let state = frame.as_ref().map(|(state, _)| state);
        let sizes = state.map_or(Ok(()), conditions::of_opening);
        let broken = outside || overlaps;
        let holds = [
            (21, above),
            (23, in_use),
            (18, broken),
            (1, frame.is_none()),
        ];
        let struck = |number: &u8| match (m, number) {
            (PartsBeforeInUse, 23) => broken,
            (PartsBeforeNumber, 21) => broken,
            (SizeBeforeParts, 18) => sizes.is_err(),
            (SizeBeforeInUse, 23 | 18) => sizes.is_err(),
            (CodesBeforeParts, 18) => frame.is_none(),
            (CodesFirst, 21 | 23 | 18) => frame.is_none(),
            _ => false,
        };
        let holding: Vec<u8> = (holds.into_iter())
            .filter_map(|(number, holds)| holds.then_some(number))
            .filter(|number| !struck(number))
            .collect();
        let answer = conditions::of_desk(&holding, state);
        if let (Ok(()), Some((_, numbers))) = (answer, frame) {
            self.opened(numbers, o).put(desk, camera);
        }
        told(m, &answer, None)
    }

    /// The place of a frame that is opened.
    fn opened(&self, described: [u32; 15], o: &Opening) -> Place {
        let m = self.mistake;
        let mut place = Place::FREE;
        place.numbers[KIND] = 1;
        place.numbers[DESCRIPTION..].copy_from_slice(&described);
        match m {
            RoundingLost => place.numbers[DESCRIPTION + 10] = 0,
            WindowLost => {
                let window = [0, 0, described[0], described[1]];
                place.numbers[DESCRIPTION + 11..].copy_from_slice(&window);
            }
            _ => {}
        }
        if m != CustomLost {
            place.customs = o.custom;
        }
        place.parts[2..].copy_from_slice(&o.parts);
        place.known(m)
    }

    fn offer(
        &mut self,
        desk: &mut DeskNumbers,
        camera: u32,
        [rows, stride]: [u32; 2],
        [offset, length, source]: [u64; 3],
    ) -> Told {
        let m = self.mistake;
        let camera = if m == Modulo32 { camera % 32 } else { camera };
        let above = camera > if m == Refuses31 { 30 } else { 31 };
        let nobody = above || !is_open(m, desk, camera);
        let waits = match m {
            WaitingBeforeNobody => is_waiting(m, desk, camera % 32),
            _ => !above && is_waiting(m, desk, camera),
        };
        let outside = m != OfferNotAsked && is_outside(m, ends(&[offset, length], 0), source);
        let place = (!nobody).then(|| Place::of(desk, camera));
        let wrong_rows = place.as_ref().is_some_and(|place| {
            let state = place.state(m);
            rows == 0 || rows > state.h.saturating_sub(state.done)
        });
        let holds = [
            (21, nobody && !(m == WaitingBeforeNobody && waits)),
            (22, waits && m != OfferReplaces),
            (18, outside),
            (5, wrong_rows && m == RowsAtOffer),
        ];
        let struck = |number: &u8| match (m, number) {
            (PartsBeforeWaiting, 22) => outside,
            (PartsBeforeNobody, 21) => outside,
            _ => false,
        };
        let holding: Vec<u8> = (holds.into_iter())
            .filter_map(|(number, holds)| holds.then_some(number))
            .filter(|number| !struck(number))
            .collect();
        let answer = conditions::of_desk(&holding, None);
        if let Some(place) = place {
            let mut place = place.anew(m);
            if answer.is_ok() {
                (place.numbers[KIND], place.numbers[ROWS]) = (2, rows);
                place.numbers[STRIDE] = stride;
                place.parts[..2].copy_from_slice(&[offset, length]);
                place.put(desk, camera);
                self.offered.retain(|other| *other != camera);
                self.offered.push(camera);
                if m == OfferedIsFirst {
                    desk.numbers[FIRST] = camera;
                }
            } else if m == RefusedWrites {
                place.put(desk, camera);
            }
        }
        told(m, &answer, None)
    }

    /// The camera whose turn it is.
    fn next(&self, desk: &DeskNumbers) -> Option<u32> {
        let m = self.mistake;
        let first = match (m, desk.numbers[FIRST]) {
            (FromZero, _) => 0,
            (FirstAbove31Is0, 32..) => 0,
            (_, first) => first % 32,
        };
        let round: Vec<u32> = match m {
            Backward => (0..32).map(|turn| (first + 32 - turn) % 32).collect(),
            NotPast31 => (first..32).collect(),
            FirstOffered => self.offered.clone(),
            LastOffered => self.offered.iter().rev().copied().collect(),
            _ => (0..32).map(|turn| (first + turn) % 32).collect(),
        };
        let mut waiting = round.into_iter().filter(|c| is_waiting(m, desk, *c));
        let first = waiting.next();
        match m {
            SecondWaiting => waiting.next().or(first),
            _ => first,
        }
    }

    fn step(&mut self, desk: &mut DeskNumbers, mut lent: [&mut [u8]; 5]) -> Result<Told, String> {
        let m = self.mistake;
        let Some(camera) = self.next(desk) else {
            match m {
                NoneMoves => desk.numbers[FIRST] = (desk.numbers[FIRST] % 32 + 1) % 32,
                NoneReduces => desk.numbers[FIRST] %= 32,
                NotPast31 => desk.numbers[FIRST] = 0,
                _ => {}
            }
            return Ok(told(m, &Ok(()), None));
        };
        let answer = self.serve(desk, camera, &mut lent)?;
        let once_more = match m {
            RefusedPassedOver => answer.is_err(),
            AllServed => true,
            _ => false,
        };
        if once_more && self.next(desk).is_some() {
            return self.step(desk, lent);
        }
        Ok(told(m, &answer, Some(camera)))
    }

    /// The turn of a camera whose band waits.
    fn serve(
        &mut self,
        desk: &mut DeskNumbers,
        camera: u32,
        lent: &mut [&mut [u8]; 5],
    ) -> Result<Answer, String> {
        let m = self.mistake;
        let place = Place::of(desk, camera);
        let (state, answer) = self.band_of(desk, camera, &place, lent)?;
        let is_18 = matches!(answer, Err(refusal) if refusal.number == 18);
        let (refused, stays) = match m {
            RefusedStays => (answer.is_err(), true),
            Refused18Stays => (is_18, true),
            _ => (false, false),
        };
        let mut after = place.anew(m);
        if !(refused && stays) {
            after.numbers[..DESCRIPTION].copy_from_slice(&[1, state.done, 0, 0]);
            after.parts[..2].fill(0);
            self.offered.retain(|other| *other != camera);
        }
        if m == DoneLost && state.done < state.h {
            after.numbers[DONE] = 0;
        }
        let is_free = match m {
            NumberKept => false,
            FreedEarly => state.done.saturating_add(1) >= state.h,
            RefusedCloses => answer.is_err() || state.done >= state.h,
            _ => state.done >= state.h,
        };
        if is_free {
            (self.finished).push([1, 2, 3, 4].map(|k| ends(&place.parts, k)));
            if m == PlaceNotCleared {
                after.numbers[KIND] = 0;
            } else {
                after = Place::FREE;
            }
        }
        after.put(desk, camera);
        let first = &mut desk.numbers[FIRST];
        *first = match m {
            NotMoved => *first,
            ServedFirstAgain => camera,
            OneOn => (*first % 32 + 1) % 32,
            After31Is32 => camera + 1,
            RefusedKeepsTurn if answer.is_err() => camera,
            Refused18KeepsTurn if is_18 => camera,
            _ => (camera + 1) % 32,
        };
        Ok(answer)
    }

    /// The band call on copies of the frame's parts, which are put back.
    fn band_of(
        &self,
        desk: &DeskNumbers,
        camera: u32,
        place: &Place,
        lent: &mut [&mut [u8]; 5],
    ) -> Result<(FrameState, Answer), String> {
        let m = self.mistake;
        let mut place = place.clone();
        let parts = &mut place.parts;
        match m {
            OffsetOfY => (parts[4], parts[6]) = (parts[2], parts[2]),
            UAndVExchanged => parts[4..8].rotate_left(2),
            SourceFromStart => parts[0] = 0,
            CarriedFromStart => parts[8] = 0,
            LengthIgnored => {
                for b in 0..5 {
                    let length = lent[b].len() as u64;
                    parts[2 * b + 1] = length.saturating_sub(parts[2 * b]);
                }
            }
            CustomOfFirst => place.customs = Place::of(desk, 0).customs,
            _ => {}
        }
        let state = place.state(m);
        let row = u64::from(state.window.source_width) * state.settings.channels.bytes();
        let outside = (0..5).any(|b| {
            let length = lent[if m == SourceAgainstY && b == 0 { 1 } else { b }].len();
            let asked = match m {
                StepNotAsked => false,
                CarriedNotAskedAtStep => b < 4,
                _ => true,
            };
            asked && is_outside(m, ends(&place.parts, b), length as u64)
        });
        let own = [1, 2, 3, 4].map(|k| ends(&place.parts, k));
        let overlaps = m == OverlapAtStep
            && (0..32).any(|c| {
                let other = [1, 2, 3, 4].map(|k| ends(&Place::of(desk, c).parts, k));
                c != camera && is_open(m, desk, c) && frames_overlap(m, &other, &own)
            });
        let broken = outside || overlaps;
        if broken && m != BandBeforeParts {
            return Ok((state, refused(18)));
        }
        // The bytes of a part that are there: all of them, without a mistake.
        let places = [0, 1, 2, 3, 4].map(|b| {
            let (start, end) = ends(&place.parts, b);
            let length = lent[b].len() as u128;
            start.min(length) as usize..end.min(length) as usize
        });
        let bytes = |b: usize| lent[b][places[b].clone()].to_vec();
        let mut request = BandRequest {
            state,
            rows: match m {
                AllRowsThatRemain => state.h.saturating_sub(state.done),
                _ => place.numbers[ROWS],
            },
            source_stride: match m {
                StrideOfRow => row as u32,
                _ => place.numbers[STRIDE],
            },
            lent: [0, 1, 2, 3].map(bytes),
            carried: bytes(4),
        };
        let mut without_row = request.clone();
        without_row.carried.fill(0);
        let should = conditions::of_band(&request);
        let called = self.converter.band(&mut request);
        let (state, answer) = called.ok_or("no band calls")?;
        equal_answers(self.converter.name(), &answer, &should)?;
        if broken && answer.is_ok() {
            return Ok((place.state(m), refused(18)));
        }
        if m == CarriedLost && self.converter.band(&mut without_row).is_some() {
            request.lent = without_row.lent;
        }
        if answer.is_ok() {
            for b in 1..4 {
                lent[b][places[b].clone()].copy_from_slice(&request.lent[b]);
            }
            if m != CarriedNotWritten {
                lent[4][places[4].clone()].copy_from_slice(&request.carried);
            }
        }
        Ok((state, answer))
    }
}
