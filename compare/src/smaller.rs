//! Smaller requests: a failing request is replaced by the first of these that fails as well.

use crate::request::{BandRequest, FrameRequest, Input, Lent, Run, Shape, shapes};
use model::{
    Settings, SharpYuvGammaTransfer, TableRounding, Window, YuvChromaSubsampling, YuvRange,
    YuvSourceChannels, YuvStandardMatrix,
};

/// Sizes to try instead of n, the smallest first.
fn below(n: u32) -> Vec<u32> {
    let mut sizes = vec![1, 2, 3, n / 2, n.saturating_sub(2), n.saturating_sub(1)];
    sizes.retain(|size| 0 < *size && *size < n);
    sizes
}

/// Each setting by itself as the first of its list.
fn plainer(settings: &Settings) -> Vec<Settings> {
    let s = *settings;
    let mut list = vec![
        Settings {
            channels: YuvSourceChannels::Rgb,
            ..s
        },
        Settings {
            sampling: YuvChromaSubsampling::Yuv420,
            ..s
        },
        Settings {
            range: YuvRange::Limited,
            ..s
        },
        Settings {
            matrix: YuvStandardMatrix::Bt601,
            ..s
        },
        Settings {
            transfer: SharpYuvGammaTransfer::Srgb,
            ..s
        },
        Settings {
            rounding: TableRounding::Truncated,
            ..s
        },
    ];
    // As text, since NaN is not equal to itself.
    list.retain(|plain| format!("{plain:?}") != format!("{s:?}"));
    list
}

/// The buffer for another stride and other rows, with the bytes from `skip` on. They stay where
/// they are in their row; what is missing or surplus at the end stays missing or surplus.
fn reshaped(bytes: &[u8], skip: usize, from: (u32, u64), to: (u32, u64)) -> Vec<u8> {
    let ((stride, rows), (new_stride, new_rows)) = (from, to);
    let end = bytes.len() as i128 - i128::from(stride) * i128::from(rows);
    let length = i128::from(new_stride) * i128::from(new_rows) + end;
    (0..length.clamp(0, bytes.len() as i128) as usize)
        .map(|i| {
            let at = match new_stride as usize {
                0 => i,
                new => i / new * stride as usize + i % new,
            };
            bytes.get(skip.saturating_add(at)).copied().unwrap_or(0)
        })
        .collect()
}

/// All four buffers for other shapes, padding kept, and their strides: once with the first rows
/// and pixels of the source, once with the last.
fn reshaped_all(
    lent: &Lent,
    strides: [u32; 4],
    old: [Shape; 4],
    new: [Shape; 4],
) -> Vec<(Lent, [u32; 4])> {
    let new_strides = [0, 1, 2, 3].map(|i| {
        let padding = i64::from(strides[i]) - old[i].row as i64;
        (new[i].row as i64 + padding).clamp(0, i64::from(u32::MAX)) as u32
    });
    let rows = old[0].rows.saturating_sub(new[0].rows) * u64::from(strides[0]);
    let last = rows.saturating_add(old[0].row.saturating_sub(new[0].row));
    let skips = if last == 0 { vec![0] } else { vec![0, last] };
    let with = |skip| {
        let lent = [0, 1, 2, 3].map(|i| {
            let (from, to) = ((strides[i], old[i].rows), (new_strides[i], new[i].rows));
            reshaped(&lent[i], if i == 0 { skip as usize } else { 0 }, from, to)
        });
        (lent, new_strides)
    };
    skips.into_iter().map(with).collect()
}

/// A buffer without padding, or with one byte more than its exact length, or with none.
fn tighter(lent: &Lent, strides: [u32; 4], shapes: [Shape; 4]) -> Vec<(Lent, [u32; 4])> {
    let mut list = Vec::new();
    for i in 0..4 {
        let rows = shapes[i].rows;
        if u64::from(strides[i]) > shapes[i].row {
            let mut changed = (lent.clone(), strides);
            changed.1[i] = shapes[i].row as u32;
            changed.0[i] = reshaped(&lent[i], 0, (strides[i], rows), (changed.1[i], rows));
            list.push(changed);
        }
        let exact = u64::from(strides[i]) * rows;
        for length in [exact, exact + 1] {
            if lent[i].len() as u64 > length {
                let mut changed = (lent.clone(), strides);
                changed.0[i].truncate(length as usize);
                list.push(changed);
            }
        }
    }
    list
}

/// With a part of the bytes 0: all, halves, and so on, down to single bytes where there are few.
/// A long buffer becomes shorter first.
fn blanker(bytes: &[u8]) -> Vec<Vec<u8>> {
    let mut list = Vec::new();
    let mut part = if bytes.len() <= 4_096 { bytes.len() } else { 0 };
    while part > 0 && bytes.len() / part <= 64 {
        for start in (0..bytes.len()).step_by(part) {
            let end = (start + part).min(bytes.len());
            if bytes[start..end].iter().any(|byte| *byte != 0) {
                let mut changed = bytes.to_vec();
                changed[start..end].fill(0);
                list.push(changed);
            }
        }
        part /= 2;
    }
    list
}

fn blanker_lent(lent: &Lent) -> Vec<Lent> {
    let mut list = Vec::new();
    for i in 0..4 {
        for bytes in blanker(&lent[i]) {
            let mut changed = lent.clone();
            changed[i] = bytes;
            list.push(changed);
        }
    }
    list
}

/// What the source has around the rectangle, to try instead of n.
fn less(n: u32) -> Vec<u32> {
    let mut list = below(n);
    if n > 0 {
        list.insert(0, 0);
    }
    list
}

/// Sizes and windows to try: a smaller rectangle with as much around it, or less around it.
fn places(w: u32, h: u32, window: &Window) -> Vec<(u32, u32, Window)> {
    let narrower = |by: u32| Window {
        source_width: window.source_width.saturating_sub(by),
        ..*window
    };
    let lower = |by: u32| Window {
        source_height: window.source_height.saturating_sub(by),
        ..*window
    };
    let Window { left, top, .. } = *window;
    let right = (window.source_width).saturating_sub(left.saturating_add(w));
    let bottom = (window.source_height).saturating_sub(top.saturating_add(h));
    let mut list = Vec::new();
    list.extend(below(w).into_iter().map(|n| (n, h, narrower(w - n))));
    list.extend(below(h).into_iter().map(|n| (w, n, lower(h - n))));
    list.extend(less(right).into_iter().map(|n| (w, h, narrower(right - n))));
    list.extend(less(bottom).into_iter().map(|n| (w, h, lower(bottom - n))));
    for n in less(left) {
        let window = narrower(left - n);
        list.push((w, h, Window { left: n, ..window }));
    }
    for n in less(top) {
        let window = lower(top - n);
        list.push((w, h, Window { top: n, ..window }));
    }
    list
}

pub fn frames(request: &FrameRequest) -> Vec<FrameRequest> {
    let mut list = Vec::new();
    let f = request.frame;
    let (w, h) = (f.w, f.h);
    let source = |window: &Window| (window.source_width, window.source_height);
    for (w, h, window) in places(w, h, &f.window) {
        let new = shapes(w, h, source(&window), &f.settings);
        for changed in reshaped_all(&request.lent, request.strides(), request.shapes(), new) {
            let mut smaller = frame_of(request, changed);
            (smaller.frame.w, smaller.frame.h) = (w, h);
            smaller.frame.window = window;
            list.push(smaller);
        }
    }
    for changed in tighter(&request.lent, request.strides(), request.shapes()) {
        list.push(frame_of(request, changed));
    }
    for settings in plainer(&f.settings) {
        let new = shapes(w, h, source(&f.window), &settings);
        for changed in reshaped_all(&request.lent, request.strides(), request.shapes(), new) {
            let mut smaller = frame_of(request, changed);
            smaller.frame.settings = settings;
            list.push(smaller);
        }
    }
    for lent in blanker_lent(&request.lent) {
        list.push(frame_of(request, (lent, request.strides())));
    }
    list
}

fn frame_of(request: &FrameRequest, changed: (Lent, [u32; 4])) -> FrameRequest {
    let mut smaller = request.clone();
    smaller.lent = changed.0;
    smaller.set_strides(changed.1);
    smaller
}

pub fn bands(request: &BandRequest) -> Vec<BandRequest> {
    let mut list = Vec::new();
    let s = request.state;
    let (w, h, done, rows) = (s.w, s.h, s.done, request.rows);
    let with = |h: u32| Window {
        source_height: s.window.source_height.saturating_sub(s.h - h),
        ..s.window
    };
    // Rows go from the frame's end, from the band, from both, or by twos from before the band.
    let mut sizes: Vec<([u32; 4], Window)> = (places(w, h, &s.window).into_iter())
        .map(|(w, h, window)| ([w, h, done, rows], window))
        .collect();
    for n in below(rows) {
        sizes.push(([w, h, done, n], s.window));
        let h = h.saturating_sub(rows - n);
        sizes.push(([w, h, done, n], with(h)));
    }
    sizes.extend((2 <= done && 2 < h).then(|| ([w, h - 2, done - 2, rows], with(h - 2))));
    for ([w, h, done, rows], window) in sizes {
        let new = shapes(w, h, (window.source_width, rows), &s.settings);
        for changed in reshaped_all(&request.lent, request.strides(), request.shapes(), new) {
            let mut smaller = band_of(request, changed);
            (smaller.state.w, smaller.state.h) = (w, h);
            smaller.state.window = window;
            (smaller.state.done, smaller.rows) = (done, rows);
            let surplus = request.carried.len() as i64 - 3 * i64::from(s.w);
            let length = (3 * i64::from(w) + surplus).max(0) as usize;
            smaller.carried.truncate(length);
            list.push(smaller);
        }
    }
    for changed in tighter(&request.lent, request.strides(), request.shapes()) {
        list.push(band_of(request, changed));
    }
    for settings in plainer(&s.settings) {
        let new = shapes(w, h, (s.window.source_width, rows), &settings);
        for changed in reshaped_all(&request.lent, request.strides(), request.shapes(), new) {
            let mut smaller = band_of(request, changed);
            smaller.state.settings = settings;
            list.push(smaller);
        }
    }
    for lent in blanker_lent(&request.lent) {
        list.push(band_of(request, (lent, request.strides())));
    }
    for carried in blanker(&request.carried) {
        list.push(BandRequest {
            carried,
            ..request.clone()
        });
    }
    list
}

fn band_of(request: &BandRequest, changed: (Lent, [u32; 4])) -> BandRequest {
    let mut smaller = request.clone();
    smaller.lent = changed.0;
    smaller.set_strides(changed.1);
    smaller
}

pub fn runs(run: &Run) -> Vec<Run> {
    let mut list = Vec::new();
    if run.refused != 0 {
        list.push(Run {
            refused: 0,
            ..run.clone()
        });
    }
    for request in frames(&run.request) {
        let mut remain = request.frame.h;
        let mut bands = Vec::new();
        for (rows, padding) in &run.bands {
            let rows = (*rows).min(remain);
            if rows > 0 {
                bands.push((rows, *padding));
            }
            remain -= rows;
        }
        list.push(Run {
            request,
            bands,
            ..run.clone()
        });
    }
    for i in 0..run.bands.len() {
        let mut smaller = run.clone();
        if run.bands[i].1 != 0 {
            smaller.bands[i].1 = 0;
            list.push(smaller);
        } else if i > 0 {
            smaller.bands[i - 1].0 += run.bands[i].0;
            smaller.bands.remove(i);
            list.push(smaller);
        }
    }
    list
}

pub fn inputs(input: &Input) -> Vec<Input> {
    let bytes = &input.0;
    let mut list: Vec<Input> = below(bytes.len() as u32)
        .into_iter()
        .map(|length| Input(bytes[..length as usize].to_vec()))
        .collect();
    list.extend(blanker(bytes).into_iter().map(Input));
    list
}
