//! How many colours share a luma: what the export counts for the codes of each range and matrix, what frame calls give all colours; refusals, of which
//! none writes a count.

use segvartin::*;

#[path = "../src/ffi.rs"]
#[allow(dead_code)]
mod ffi;

const COLOURS: u32 = 16_777_216;

const RANGES: [YuvRange; 2] = [YuvRange::Limited, YuvRange::Full];
const MATRICES: [YuvStandardMatrix; 6] = [
    YuvStandardMatrix::Bt601,
    YuvStandardMatrix::Bt709,
    YuvStandardMatrix::Bt2020,
    YuvStandardMatrix::Smpte240,
    YuvStandardMatrix::Bt470_6,
    YuvStandardMatrix::Fcc,
];

/// What stands where no count was written.
const KEPT: [u32; 256] = [0xa5a5_5a5a; 256];

/// The number that the exported call answers, what it leaves of the counts, and what it tells.
fn by_export(numbers: &[u32], custom: [f32; 2]) -> (u32, [u32; 256], [usize; 2]) {
    let (mut counts, mut told) = (KEPT, [99; 2]);
    // SAFETY: each pointer is that of a slice beside its own length, or of a local; no two overlap, as the borrows say.
    let number = unsafe {
        ffi::segvartin_call_luma_counts(
            numbers.as_ptr(),
            numbers.len(),
            &custom,
            &mut counts,
            &mut told,
        )
    };
    (number, counts, told)
}

#[test]
fn every_range_and_matrix() {
    for (range, range_code) in RANGES.into_iter().zip(0..) {
        let codes = MATRICES
            .into_iter()
            .zip(0..)
            .chain([(YuvStandardMatrix::Custom(0.25, 0.0625), 6)]);
        for (matrix, matrix_code) in codes {
            let counts = luma_counts(range, matrix).unwrap();
            let export = by_export(&[range_code, matrix_code], [0.25, 0.0625]);
            assert_eq!(export, (0, counts, [0, 0]));
            assert_eq!(counts.iter().sum::<u32>(), COLOURS);
            let outside = counts[..16].iter().chain(&counts[236..]).sum::<u32>();
            assert_eq!(outside == 0, range == YuvRange::Limited);
        }
    }
}

#[test]
fn worked_counts() {
    let counts = luma_counts(YuvRange::Full, YuvStandardMatrix::Bt601).unwrap();
    assert_eq!((counts[0], counts[255]), (7, 7));
    // luma is green itself
    let green = luma_counts(YuvRange::Full, YuvStandardMatrix::Custom(0.0, -0.0));
    assert_eq!(green, Ok([65_536; 256]));
}

/// RULES 4.3: Custom of Bt601's kr and kb has its weights, and so has that of Fcc's.
#[test]
fn custom_as_a_named_matrix() {
    for range in RANGES {
        for (custom, named) in [
            (
                YuvStandardMatrix::Custom(0.299, 0.114),
                YuvStandardMatrix::Bt601,
            ),
            (YuvStandardMatrix::Custom(0.3, 0.11), YuvStandardMatrix::Fcc),
        ] {
            assert_eq!(luma_counts(range, custom), luma_counts(range, named));
        }
    }
}

/// The order of the three weights does not matter to a count; but of this pair the green one is 4805, and 4806 where kr and kb are exchanged.
#[test]
fn kr_comes_before_kb() {
    let [kr, kb] = [0x3e40_ea16, 0x3e03_a7ad].map(f32::from_bits);
    let counts = luma_counts(YuvRange::Limited, YuvStandardMatrix::Custom(kr, kb)).unwrap();
    assert_eq!(by_export(&[0, 6], [kr, kb]).1, counts);
    assert_ne!(by_export(&[0, 6], [kb, kr]).1, counts);
}

/// A frame for each red, green by rows and blue by columns.
#[test]
fn as_frames_have_it() {
    let (range, matrix) = (YuvRange::Limited, YuvStandardMatrix::Fcc);
    let mut image = YuvPlanarImageMut::<u8>::alloc(256, 256, YuvChromaSubsampling::Yuv420);
    let mut counts = [0; 256];
    for red in 0..=255 {
        let source: Vec<u8> = (0..=255)
            .flat_map(|green| (0..=255).flat_map(move |blue| [red, green, blue]))
            .collect();
        let transfer = SharpYuvGammaTransfer::Srgb;
        rgb_to_sharp_yuv420(&mut image, &source, 3 * 256, range, matrix, transfer).unwrap();
        for luma in image.y_plane.borrow() {
            counts[*luma as usize] += 1;
        }
    }
    assert_eq!(luma_counts(range, matrix), Ok(counts));
}

#[test]
fn refusals() {
    for k in [
        0.6,
        -0.1,
        f32::NAN,
        f32::INFINITY,
        0.5f32.next_up(),
        0.0f32.next_down(),
    ] {
        for (kr, kb) in [(k, 0.25), (0.25, k)] {
            for (range, code) in RANGES.into_iter().zip(0..) {
                let refused = luma_counts(range, YuvStandardMatrix::Custom(kr, kb));
                assert_eq!(refused, Err(YuvError::MatrixNotAccepted));
                assert_eq!(by_export(&[code, 6], [kr, kb]), (4, KEPT, [0, 0]));
            }
        }
    }
    assert!(luma_counts(YuvRange::Full, YuvStandardMatrix::Custom(0.5, 0.5)).is_ok());
    // codes without a meaning and other counts of numbers, which the enums here cannot say; 1 before 4
    for numbers in [
        &[2, 0][..],
        &[0, 7],
        &[u32::MAX, 6],
        &[1, 256],
        &[],
        &[1],
        &[1, 0, 0],
    ] {
        assert_eq!(by_export(numbers, [f32::NAN, 0.6]), (1, KEPT, [0, 0]));
    }
}
