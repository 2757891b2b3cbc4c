//! Worked by hand: black frames of one column, limited range, whose planes are 16, 128 and 128.

use super::*;

const UNTOUCHED: u8 = 7;
const LENGTHS: [u64; 4] = [8, 8, 8, 24];

/// A black frame of one column and two rows in 4:2:2, without padding: ten numbers.
const BLACK: [u32; 10] = [1, 2, 0, 1, 0, 0, 0, 1, 1, 1];

/// Its parts: two bytes of each plane, and three of carried rows.
fn parts(k: u64) -> [u64; 8] {
    [2 * k, 2, 2 * k, 2, 2 * k, 2, 3 * k, 3]
}

struct Held {
    desk: DeskNumbers,
    source: Vec<u8>,
    planes: [Vec<u8>; 3],
    carried: Vec<u8>,
}

/// A fresh desk, a black source of twelve bytes, and the buffers of those lengths.
fn held() -> Held {
    Held {
        desk: DeskNumbers::FRESH,
        source: vec![0; 12],
        planes: [(); 3].map(|()| vec![UNTOUCHED; 8]),
        carried: vec![UNTOUCHED; 24],
    }
}

impl Held {
    fn open(&mut self, camera: u32, parts: [u64; 8]) -> u64 {
        let told = (self.desk).open(camera, &BLACK, [0.0; 2], &parts, LENGTHS);
        assert_eq!(told[1..], [0; 4]);
        told[0]
    }

    /// A row from the source's first byte on.
    fn offer(&mut self, camera: u32) -> u64 {
        self.desk.offer(camera, [1, 3], [0, 3, 12])[0]
    }

    fn step(&mut self) -> Told {
        let [y, u, v] = &mut self.planes;
        self.desk.step(Buffers {
            source: &self.source,
            y,
            u,
            v,
            carried: &mut self.carried,
        })
    }

    /// Number and camera of the next step.
    fn served(&mut self) -> (u64, u64) {
        let [number, _, _, served, camera] = self.step();
        assert_eq!(served, 1);
        (number, camera)
    }
}

#[test]
fn a_step_with_none_waiting_does_nothing() {
    let mut held = held();
    assert_eq!(held.open(3, parts(0)), 0);
    held.desk.numbers[FIRST] = 77;
    let before = held.desk;
    assert_eq!(held.step(), [0; 5]);
    assert_eq!(held.desk, before);
    assert_eq!(held.planes[0], [UNTOUCHED; 8]);
}

#[test]
fn what_is_written() {
    let mut held = held();
    assert_eq!(held.open(1, parts(2)), 0);
    let mut numbers = [0; 19];
    numbers[0] = 1;
    numbers[4..14].copy_from_slice(&BLACK);
    numbers[17..].copy_from_slice(&[1, 2]);
    assert_eq!(held.desk.numbers[19..38], numbers);
    assert_eq!(held.desk.parts[10..20], [0, 0, 4, 2, 4, 2, 4, 2, 6, 3]);
    assert_eq!(held.desk.offer(1, [1, 4], [5, 4, 9])[0], 0);
    numbers[..4].copy_from_slice(&[2, 0, 1, 4]);
    assert_eq!(held.desk.numbers[19..38], numbers);
    assert_eq!(held.desk.parts[10..20], [5, 4, 4, 2, 4, 2, 4, 2, 6, 3]);
    assert_eq!(held.step(), [0, 0, 0, 1, 1]);
    numbers[..4].copy_from_slice(&[1, 1, 0, 0]);
    assert_eq!(held.desk.numbers[19..38], numbers);
    assert_eq!(held.desk.parts[10..12], [0, 0]);
    assert_eq!(held.desk.numbers[FIRST], 2);
    assert_eq!(held.planes[0], [7, 7, 7, 7, 16, 7, 7, 7]);
    assert_eq!(held.planes[1], [7, 7, 7, 7, 128, 7, 7, 7]);
    // The last row: all zeros but for the camera asked first.
    assert_eq!(held.offer(1), 0);
    assert_eq!(held.step(), [0, 0, 0, 1, 1]);
    let mut fresh = DeskNumbers::FRESH;
    fresh.numbers[FIRST] = 2;
    assert_eq!(held.desk, fresh);
}

#[test]
fn the_round() {
    let mut held = held();
    for (camera, k) in [(0, 0), (5, 1), (31, 2)] {
        assert_eq!(held.open(camera, parts(k)), 0);
        assert_eq!(held.offer(camera), 0);
    }
    assert_eq!(held.served(), (0, 0));
    // Camera 0 again, though it waits before 5 and 31 are served.
    assert_eq!(held.offer(0), 0);
    assert_eq!(held.served(), (0, 5));
    assert_eq!(held.served(), (0, 31));
    assert_eq!(held.desk.numbers[FIRST], 0);
    assert_eq!(held.served(), (0, 0));
    assert_eq!(held.step(), [0; 5]);
}

#[test]
fn free_after_the_last_row() {
    let mut held = held();
    assert_eq!(held.open(4, parts(0)), 0);
    for _ in 0..2 {
        assert_eq!(held.open(4, parts(1)), 23);
        assert_eq!(held.offer(4), 0);
        assert_eq!(held.served(), (0, 4));
    }
    assert_eq!(held.offer(4), 21);
    // Its parts are free too, before the next step.
    assert_eq!(held.open(9, parts(0)), 0);
    assert_eq!(held.open(4, parts(1)), 0);
}

#[test]
fn numbers_of_cameras() {
    let mut held = held();
    assert_eq!(held.open(32, parts(0)), 21);
    assert_eq!(held.open(u32::MAX, parts(0)), 21);
    assert_eq!(held.open(31, parts(0)), 0);
    assert_eq!(held.offer(30), 21);
    assert_eq!(held.offer(32), 21);
    assert_eq!(held.offer(31), 0);
    assert_eq!(held.offer(31), 22);
}

#[test]
fn the_order_of_refusals() {
    let mut held = held();
    assert_eq!(held.open(1, parts(0)), 0);
    let outside = [9; 8];
    let mut open = |camera, described: &[u32], parts| {
        held.desk.open(camera, described, [0.0; 2], &parts, LENGTHS)[0]
    };
    assert_eq!(open(32, &[], outside), 21);
    assert_eq!(open(1, &[], outside), 23);
    assert_eq!(open(2, &[], outside), 18);
    assert_eq!(open(2, &[], parts(0)), 18);
    assert_eq!(open(2, &[0; 9], parts(1)), 1);
    assert_eq!(open(2, &[0; 10], parts(1)), 2);
    let [mut large, mut window] = [[0; 15]; 2];
    large[..2].copy_from_slice(&[16_385, 1]);
    window[..2].copy_from_slice(&[1, 1]);
    assert_eq!(open(2, &large, parts(1)), 3);
    assert_eq!(open(2, &window, parts(1)), 14);
    window[5] = 6;
    assert_eq!(open(2, &window, parts(1)), 14);
    assert_eq!(held.desk.offer(2, [1, 3], [13, 0, 12])[0], 21);
    assert_eq!(held.desk.offer(1, [1, 3], [13, 0, 12])[0], 18);
    assert_eq!(held.offer(1), 0);
    assert_eq!(held.desk.offer(1, [1, 3], [13, 0, 12])[0], 22);
}

#[test]
fn parts_that_overlap() {
    for buffer in 0..4 {
        let mut held = held();
        assert_eq!(held.open(1, parts(1)), 0);
        let mut with = |offset: u64, length: u64| {
            let mut numbers = parts(3);
            (numbers[2 * buffer], numbers[2 * buffer + 1]) = (offset, length);
            let told = (held.desk).open(2, &BLACK, [0.0; 2], &numbers, [u64::MAX; 4]);
            held.desk.write(2, None);
            told[0]
        };
        let [first, length] = [[2, 2], [2, 2], [2, 2], [3, 3]][buffer];
        let end = first + length;
        for (offset, length) in [
            (first, length),
            (0, first + 1),
            (end - 1, 9),
            (first + 1, 1),
            (0, u64::MAX),
        ] {
            assert_eq!(with(offset, length), 18, "{offset} {length} of {buffer}");
        }
        for (offset, length) in [(0, first), (end, 9), (first, 0), (first + 1, 0), (end, 0)] {
            assert_eq!(with(offset, length), 0, "{offset} {length} of {buffer}");
        }
        assert_eq!(with(u64::MAX, 1), 18, "outside");
        assert_eq!(with(u64::MAX, first + 2), 18, "a sum past 2^64");
        assert_eq!(with(u64::MAX, 0), 0, "no bytes at the end");
    }
}

#[test]
fn parts_of_one_frame_and_of_unlike_buffers() {
    let mut held = held();
    assert_eq!(held.open(1, [0, 2, 2, 2, 4, 2, 6, 3]), 0);
    assert_eq!(held.open(2, [2, 2, 0, 2, 0, 2, 0, 3]), 0);
}

#[test]
fn lengths_of_the_moment() {
    let mut held = held();
    let long = [9; 4];
    let parts = [7, 2, 0, 2, 0, 2, 0, 3];
    let told = held.desk.open(6, &BLACK, [0.0; 2], &parts, long);
    assert_eq!(told[0], 0);
    assert_eq!(held.offer(6), 0);
    // Y is shorter at the step.
    let before = held.desk;
    assert_eq!(held.step(), [18, 0, 0, 1, 6]);
    let mut after = before;
    after.numbers[19 * 6..19 * 6 + 4].copy_from_slice(&[1, 0, 0, 0]);
    after.parts[10 * 6..10 * 6 + 2].copy_from_slice(&[0, 0]);
    after.numbers[FIRST] = 7;
    assert_eq!(held.desk, after);
    held.planes[0].push(UNTOUCHED);
    assert_eq!(held.offer(6), 0);
    assert_eq!(held.step(), [0, 0, 0, 1, 6]);
    assert_eq!(held.planes[0], [7, 7, 7, 7, 7, 7, 7, 16, 7]);
}

#[test]
fn a_refused_band_is_dropped() {
    let mut held = held();
    for (camera, k) in [(1, 0), (2, 1)] {
        assert_eq!(held.open(camera, parts(k)), 0);
    }
    assert_eq!(held.desk.offer(1, [3, 3], [0, 9, 12])[0], 0);
    assert_eq!(held.offer(2), 0);
    assert_eq!(held.served(), (5, 1));
    assert_eq!(held.planes[0], [UNTOUCHED; 8]);
    assert_eq!(held.offer(1), 0);
    assert_eq!(held.served(), (0, 2));
    assert_eq!(held.served(), (0, 1));
    // Expected and received are those of the part.
    assert_eq!(held.desk.offer(2, [1, 3], [0, 2, 12])[0], 0);
    assert_eq!(held.step(), [6, 3, 2, 1, 2]);
}

#[test]
fn a_desk_that_no_call_made() {
    let mut held = held();
    assert_eq!(held.open(3, parts(0)), 0);
    assert_eq!(held.offer(3), 0);
    let good = held.desk;
    for kind in [0, 3, u32::MAX] {
        held.desk = good;
        held.desk.numbers[19 * 3] = kind;
        assert_eq!(held.offer(3), 21);
        assert_eq!(held.step(), [0; 5]);
        assert_eq!(held.open(3, parts(0)), 0);
    }
    // A code without a meaning is 0, and is written so; kr and kb without Custom are 0.
    held.desk = good;
    for place in [6, 7, 8, 9, 10, 14] {
        held.desk.numbers[19 * 3 + place] = 256;
    }
    held.desk.customs[7] = 3.0;
    held.desk.numbers[FIRST] = 36;
    held.desk.numbers[0] = 3;
    // In 4:2:0 its part of U has a byte too many.
    assert_eq!(held.step(), [12, 1, 2, 1, 3]);
    for place in [6, 7, 8, 9, 10, 14] {
        assert_eq!(held.desk.numbers[19 * 3 + place], 0);
    }
    assert_eq!(held.desk.customs[7].to_bits(), 0);
    assert_eq!((held.desk.numbers[FIRST], held.desk.numbers[0]), (4, 3));
}

#[test]
fn the_description_has_ten_numbers_or_eleven_or_fifteen() {
    let all = [1, 2, 0, 1, 0, 6, 0, 1, 1, 1, 1, 0, 0, 1, 2, 0];
    for count in 0..=16 {
        let mut desk = DeskNumbers::FRESH;
        let told = desk.open(0, &all[..count], [0.25, 0.125], &parts(0), LENGTHS);
        if matches!(count, 10 | 11 | 15) {
            let rounding = u32::from(count > 10);
            assert_eq!(told[0], 0);
            assert_eq!(desk.numbers[14..19], [rounding, 0, 0, 1, 2]);
            assert_eq!(desk.customs[..2], [0.25, 0.125]);
        } else {
            assert_eq!((told[0], desk), (1, DeskNumbers::FRESH), "{count}");
        }
    }
    let refused = [0.25, f32::NAN];
    let mut desk = DeskNumbers::FRESH;
    let told = desk.open(0, &all[..15], refused, &parts(0), LENGTHS);
    assert_eq!(told[0], 4);
}
