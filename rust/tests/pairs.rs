//! Two shift files paired: those of RULES 13.1; each byte of a small record changed, in frames of many widths; crossings that several records have; sizes
//! exchanged; broken files, and which of the two they are; full files.

use segvartin::*;

fn record(crossing: u32, width: u16, height: u16) -> Vec<u8> {
    let (w, h) = (usize::from(width), usize::from(height));
    let planes = w * h + 2 * w.div_ceil(2) * h.div_ceil(2);
    let mut bytes = crossing.to_le_bytes().to_vec();
    bytes.extend(width.to_le_bytes());
    bytes.extend(height.to_le_bytes());
    bytes.extend((0..planes).map(|i| (crossing as usize * 7 + i * 31) as u8));
    bytes
}

fn file_of(records: &[Vec<u8>]) -> Vec<u8> {
    let records = records.concat();
    let mut file = vec![0; shift_file_size(&records).unwrap()];
    write_shift_file(&records, &mut file).unwrap();
    file
}

/// RULES 13.1.
fn worked() -> [Vec<Vec<u8>>; 2] {
    let pixel = |crossing: u32, y: u8| {
        let mut bytes = crossing.to_le_bytes().to_vec();
        bytes.extend([1, 0, 1, 0, y, 0x60, 0x70]);
        bytes
    };
    let mut two = 1400u32.to_le_bytes().to_vec();
    two.extend([3, 0, 2, 0]);
    two.extend([0x10, 0x11, 0x12, 0x20, 0x21, 0x22, 0x30, 0x31, 0x40, 0x41]);
    let mut other = two.clone();
    other[17] = 0x42;
    let (early, late) = (pixel(70_000, 0x50), pixel(70_000, 0x51));
    [
        vec![
            early,
            two.clone(),
            pixel(9, 0x11),
            late.clone(),
            pixel(30, 0x22),
        ],
        vec![other, pixel(8, 0x33), late, two, pixel(30, 0x22)],
    ]
}

fn counts(report: &PairReport) -> [usize; 4] {
    [
        report.equal,
        report.differing,
        report.only_ours,
        report.only_theirs,
    ]
}

fn pair(first: &DifferingPair) -> (u32, usize, usize) {
    (first.crossing, first.our_record, first.their_record)
}

fn place(first: &DifferingPair) -> Option<(YuvPlane, usize, usize)> {
    match first.difference {
        PairDifference::Place {
            plane, row, column, ..
        } => Some((plane, row, column)),
        _ => None,
    }
}

fn sizes(first: &DifferingPair) -> Option<[(u32, u32); 2]> {
    match first.difference {
        PairDifference::Sizes { ours, theirs, .. } => Some([ours, theirs]),
        _ => None,
    }
}

#[test]
fn the_files_of_the_rules() {
    let [ours, mut theirs] = worked();
    let report = pair_shift_files(&file_of(&ours), &file_of(&theirs)).unwrap();
    assert_eq!(counts(&report), [1, 2, 2, 2]);
    let first = report.first.unwrap();
    assert_eq!(pair(&first), (1400, 1, 0));
    assert_eq!(place(&first), Some((YuvPlane::V, 0, 1)));
    let exchanged = pair_shift_files(&file_of(&theirs), &file_of(&ours)).unwrap();
    assert_eq!(counts(&exchanged), [1, 2, 2, 2]);
    assert_eq!(pair(&exchanged.first.unwrap()), (1400, 0, 1));
    (theirs[0][4], theirs[0][6]) = (2, 3);
    let report = pair_shift_files(&file_of(&ours), &file_of(&theirs)).unwrap();
    assert_eq!(counts(&report), [1, 2, 2, 2]);
    let first = report.first.unwrap();
    assert_eq!(
        (pair(&first), sizes(&first)),
        ((1400, 1, 0), Some([(3, 2), (2, 3)]))
    );
    let file = file_of(&ours);
    let same = pair_shift_files(&file, &file).unwrap();
    assert_eq!((counts(&same), same.first), ([5, 0, 0, 0], None));
}

#[test]
fn each_byte_of_small_frames() {
    for width in (1..=20).chain([31, 32, 33]) {
        for height in 1..=3 {
            let ours = record(1400, width, height);
            let (w, h) = (usize::from(width), usize::from(height));
            let (half, luma) = (w.div_ceil(2), w * h);
            let chroma = half * h.div_ceil(2);
            for k in 0..ours.len() - 8 {
                let mut theirs = ours.clone();
                theirs[8 + k] ^= 0x80;
                let report = pair_shift_files(&file_of(&[ours.clone()]), &file_of(&[theirs]));
                let report = report.unwrap();
                assert_eq!(counts(&report), [0, 1, 0, 0]);
                let should = if k < luma {
                    (YuvPlane::Y, k / w, k % w)
                } else if k < luma + chroma {
                    (YuvPlane::U, (k - luma) / half, (k - luma) % half)
                } else {
                    let k = k - luma - chroma;
                    (YuvPlane::V, k / half, k % half)
                };
                assert_eq!(place(&report.first.unwrap()), Some(should));
            }
        }
    }
}

#[test]
fn the_kth_with_the_kth() {
    // The same size, and unlike bytes.
    let look = |k: u8| {
        let mut look = record(7, 4, 4);
        look[8] = k;
        look
    };
    let ours = [look(0), look(1), look(2)];
    let theirs = [look(0), look(2)];
    let report = pair_shift_files(&file_of(&ours), &file_of(&theirs)).unwrap();
    assert_eq!(counts(&report), [1, 1, 1, 0]);
    assert_eq!(pair(&report.first.unwrap()), (7, 1, 1));
    // By crossing first: that of crossing 6 stands last in ours, and its like first in theirs.
    let ours = [look(0), look(1), record(6, 2, 1)];
    let theirs = [record(6, 1, 2), look(1), look(0)];
    let report = pair_shift_files(&file_of(&ours), &file_of(&theirs)).unwrap();
    assert_eq!(counts(&report), [0, 3, 0, 0]);
    let first = report.first.unwrap();
    assert_eq!(
        (pair(&first), sizes(&first)),
        ((6, 2, 0), Some([(2, 1), (1, 2)]))
    );
    // The lowest and the highest crossing.
    let ours = [record(u32::MAX, 1, 1), record(0, 1, 1)];
    let theirs = [record(0, 1, 1), record(u32::MAX, 2, 1)];
    let report = pair_shift_files(&file_of(&ours), &file_of(&theirs)).unwrap();
    assert_eq!(
        (counts(&report), pair(&report.first.unwrap())),
        ([1, 1, 0, 0], (u32::MAX, 0, 1))
    );
}

#[test]
fn broken_files() {
    let [ours, theirs] = worked().map(|records| file_of(&records));
    let broken = |side| {
        Err(PairError {
            side,
            error: YuvError::MalformedShiftFile,
        })
    };
    for k in 0..ours.len() {
        assert_eq!(
            pair_shift_files(&ours[..k], &theirs),
            broken(PairSide::Ours)
        );
        assert_eq!(
            pair_shift_files(&theirs, &ours[..k]),
            broken(PairSide::Theirs)
        );
        assert_eq!(
            pair_shift_files(&ours[..k], &theirs[..k]),
            broken(PairSide::Ours)
        );
    }
    let error = pair_shift_files(&ours, &[]).unwrap_err();
    assert_eq!(
        (error.error.number(), YuvError::from(error)),
        (15, YuvError::MalformedShiftFile)
    );
    assert!(
        error.to_string().starts_with("theirs: ") && std::error::Error::source(&error).is_some()
    );
    let empty = pair_shift_files(&[0; 4], &[0; 4]).unwrap();
    assert_eq!((counts(&empty), empty.first), ([0; 4], None));
}

#[test]
fn full_files() {
    let ours: Vec<Vec<u8>> = (0..4096u32)
        .map(|k| record(k.wrapping_mul(2_654_435_761), 2, 1))
        .collect();
    let mut theirs = ours.clone();
    theirs.reverse();
    let report = pair_shift_files(&file_of(&ours), &file_of(&theirs)).unwrap();
    assert_eq!((counts(&report), report.first), ([4096, 0, 0, 0], None));
    theirs.pop();
    let last = theirs.last_mut().unwrap();
    *last.last_mut().unwrap() ^= 1;
    let report = pair_shift_files(&file_of(&ours), &file_of(&theirs)).unwrap();
    assert_eq!(counts(&report), [4094, 1, 1, 0]);
    let first = report.first.unwrap();
    assert_eq!(
        (pair(&first), place(&first)),
        ((2_654_435_761, 1, 4094), Some((YuvPlane::V, 0, 0)))
    );
    // Of one crossing all: in the order of the files.
    let one = vec![record(5, 1, 1); 4096];
    let report = pair_shift_files(&file_of(&one), &file_of(&one[..4000])).unwrap();
    assert_eq!((counts(&report), report.first), ([4000, 0, 96, 0], None));
}
