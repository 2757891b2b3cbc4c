//! Worked by hand: black frames of one pixel, limited range, whose planes are 16, 128 and 128.

use super::*;

const UNTOUCHED: u8 = 7;

/// The numbers of a black frame of 1 × 1.
const BLACK: [u32; 16] = [3, 1, 1, 0, 0, 0, 0, 0, 1, 1, 1, 0, 0, 0, 1, 1];

/// Its parts: source, and the same place in each plane.
fn parts(source: u64, plane: u64) -> [u64; 8] {
    [source, 3, plane, 1, plane, 1, plane, 1]
}

struct Called {
    answer: Result<(), (u8, u64, u64)>,
    done: u64,
    planes: [Vec<u8>; 3],
}

/// A call on a black source of six bytes and planes of four.
fn called(count: u64, numbers: &[u32], customs: &[f32], parts: &[u64]) -> Called {
    let told = Numbers {
        count,
        numbers,
        customs,
        parts,
    };
    let mut planes = [(); 3].map(|()| vec![UNTOUCHED; 4]);
    let [y, u, v] = &mut planes;
    let (answer, done) = convoy_by_numbers(&told, &[0; 6], y, u, v);
    let answer = answer.map_err(|refusal| (refusal.number, refusal.expected, refusal.received));
    Called {
        answer,
        done,
        planes,
    }
}

fn blacks(parts: &[[u64; 8]]) -> Called {
    let numbers = BLACK.repeat(parts.len());
    called(parts.len() as u64, &numbers, &[], parts.as_flattened())
}

const BROKEN: Result<(), (u8, u64, u64)> = Err((18, 0, 0));

fn is_broken_by(parts: &[[u64; 8]]) -> bool {
    let called = blacks(parts);
    if called.answer == BROKEN {
        assert_eq!(called.done, 0);
        assert_eq!(called.planes, [(); 3].map(|()| vec![UNTOUCHED; 4]));
    }
    called.answer == BROKEN
}

#[test]
fn no_frame_is_finished_work() {
    let called = called(0, &[], &[], &[]);
    assert_eq!((called.answer, called.done), (Ok(()), 0));
    assert_eq!(called.planes[0], [UNTOUCHED; 4]);
}

#[test]
fn each_frame_has_its_parts() {
    let called = blacks(&[parts(0, 2), parts(3, 0)]);
    assert_eq!((called.answer, called.done), (Ok(()), 2));
    assert_eq!(called.planes[0], [16, UNTOUCHED, 16, UNTOUCHED]);
    assert_eq!(called.planes[1], [128, UNTOUCHED, 128, UNTOUCHED]);
    assert_eq!(called.planes[2], called.planes[1]);
}

#[test]
fn sixty_four_and_no_more() {
    let none = [0; 8];
    assert!(!is_broken_by(&[none; 64]), "the first is refused, not all");
    assert!(is_broken_by(&[none; 65]));
    assert_eq!(called(u64::MAX, &[], &[], &[]).answer, BROKEN);
}

#[test]
fn source_parts_may_be_shared() {
    let called = blacks(&[parts(1, 0), parts(1, 1), parts(2, 2)]);
    assert_eq!((called.answer, called.done), (Ok(()), 3));
}

#[test]
fn one_byte_of_two_frames() {
    assert!(is_broken_by(&[parts(0, 0), parts(0, 0)]));
    // In one plane alone, and not next to each other in the list.
    for plane in 1..4 {
        let mut last = parts(0, 2);
        last[2 * plane] = 0;
        assert!(is_broken_by(&[parts(0, 0), parts(0, 1), last]));
    }
    // A part that has all of the plane, with one inside it.
    let mut all = parts(0, 0);
    all[3] = 4;
    assert!(is_broken_by(&[all, parts(0, 1)]));
    assert!(is_broken_by(&[parts(0, 3), all]));
}

#[test]
fn parts_that_touch_and_parts_of_no_bytes() {
    assert!(!is_broken_by(&[parts(0, 1), parts(0, 0), parts(0, 2)]));
    // No bytes inside the bytes of another, twice, and at the end.
    let none = |at| [at, 0, at, 0, at, 0, at, 0];
    assert!(!is_broken_by(&[parts(0, 1), none(1), none(1), none(4)]));
    let mut all = parts(0, 0);
    all[3] = 4;
    assert!(!is_broken_by(&[all, none(2)]));
}

#[test]
fn the_planes_are_three_buffers() {
    // Y of one where U of the other is.
    let crossed = [[0, 3, 0, 1, 1, 1, 2, 1], [0, 3, 1, 1, 2, 1, 0, 1]];
    assert_eq!(blacks(&crossed).answer, Ok(()));
}

#[test]
fn outside() {
    for (buffer, length) in [(0, 6), (1, 4), (2, 4), (3, 4)] {
        let with = |part: [u64; 2]| {
            let mut numbers = parts(0, 0);
            numbers[2 * buffer..2 * buffer + 2].copy_from_slice(&part);
            is_broken_by(&[numbers])
        };
        for part in [
            [0, length + 1],
            [length, 1],
            [length + 1, 0],
            [1, length],
            [u64::MAX, 1],
            [u64::MAX, 2],
            [2, u64::MAX],
            [1 << 63, 1 << 63],
            [u64::MAX, u64::MAX],
            [u64::MAX, 0],
            [0, u64::MAX],
        ] {
            assert!(with(part), "{part:?} of buffer {buffer}");
        }
        for part in [[0, length], [length, 0], [length - 1, 1], [0, 0]] {
            assert!(!with(part), "{part:?} of buffer {buffer}");
        }
    }
}

#[test]
fn eighteen_comes_before_any_frame() {
    // The first frame would be refused with 1, and one in the middle converted.
    let numbers = [[9; 16], BLACK, BLACK].concat();
    let broken = [parts(0, 0), parts(0, 1), parts(0, 4)];
    let called = called(3, &numbers, &[], broken.as_flattened());
    assert_eq!((called.answer, called.done), (BROKEN, 0));
    assert_eq!(called.planes[0], [UNTOUCHED; 4]);
}

#[test]
fn the_first_refused_frame_ends_it() {
    let parts = [parts(0, 3), parts(0, 1), parts(0, 0)];
    let mut second = BLACK;
    second[1] = 0;
    let numbers = [BLACK, second, BLACK].concat();
    let called = called(3, &numbers, &[], parts.as_flattened());
    assert_eq!((called.answer, called.done), (Err((2, 0, 0)), 1));
    let first = [UNTOUCHED, UNTOUCHED, UNTOUCHED, 16];
    assert_eq!(called.planes[0], first);
}

#[test]
fn expected_and_received_are_those_of_the_part() {
    let mut short = parts(0, 0);
    short[1] = 2;
    let called = blacks(&[parts(3, 1), short]);
    assert_eq!((called.answer, called.done), (Err((6, 3, 2)), 1));
}

#[test]
fn numbers_that_are_missing() {
    // Of the description: 1, at its turn.
    let numbers = BLACK.repeat(2);
    let two = [parts(0, 0), parts(0, 1)];
    let told = called(2, &numbers[..31], &[], two.as_flattened());
    assert_eq!((told.answer, told.done), (Err((1, 0, 0)), 1));
    // Of a part: 0, which is a source of no bytes.
    let told = called(2, &numbers, &[], &two.as_flattened()[..8]);
    assert_eq!((told.answer, told.done), (Err((6, 3, 0)), 1));
    // Of kr and kb, where they are looked at.
    let mut custom = BLACK;
    custom[6] = 6;
    let told = called(1, &custom, &[0.25], &parts(0, 0));
    assert_eq!((told.answer, told.done), (Err((4, 0, 0)), 0));
    let told = called(1, &custom, &[0.25, 0.25], &parts(0, 0));
    assert_eq!((told.answer, told.done), (Ok(()), 1));
}

#[test]
fn numbers_that_are_too_many() {
    let numbers = [&BLACK[..], &[99; 5]].concat();
    let parts = [&parts(0, 0)[..], &[u64::MAX; 9]].concat();
    let told = called(1, &numbers, &[], &parts);
    assert_eq!((told.answer, told.done), (Ok(()), 1));
}

#[test]
fn codes_without_a_meaning() {
    for at in [3, 4, 5, 6, 7, 11] {
        for code in [7, 256, u32::MAX] {
            let mut numbers = BLACK;
            numbers[at] = code;
            let told = called(1, &numbers, &[], &parts(0, 0));
            assert_eq!((told.answer, told.done), (Err((1, 0, 0)), 0), "{at} {code}");
        }
    }
}
