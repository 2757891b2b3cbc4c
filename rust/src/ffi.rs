//! The exported functions, as include/segvartin.h says them.
// Made by tools/declarations.py from the library's source: change that, and run it.

unsafe extern "C" {
    pub(crate) fn segvartin_call_frame(
        numbers: *const u32,
        numbers_len: usize,
        custom: &[f32; 2],
        source: *const u8,
        source_len: usize,
        y: *mut u8,
        y_len: usize,
        u: *mut u8,
        u_len: usize,
        v: *mut u8,
        v_len: usize,
        told: &mut [usize; 2],
    ) -> u32;

    pub(crate) fn segvartin_call_convoy(
        count: usize,
        numbers: *const u32,
        numbers_len: usize,
        customs: *const f32,
        customs_len: usize,
        parts: *const u64,
        parts_len: usize,
        source: *const u8,
        source_len: usize,
        y: *mut u8,
        y_len: usize,
        u: *mut u8,
        u_len: usize,
        v: *mut u8,
        v_len: usize,
        told: &mut [usize; 3],
    ) -> u32;

    pub(crate) fn segvartin_call_desk_open(
        camera: u32,
        described: *const u32,
        described_len: usize,
        custom: &[f32; 2],
        frame_parts: &[u64; 8],
        lengths: &[u64; 4],
        numbers: &mut [u32; 609],
        customs: &mut [f32; 64],
        parts: &mut [u64; 320],
        told: &mut [usize; 2],
    ) -> u32;

    pub(crate) fn segvartin_call_desk_offer(
        camera: u32,
        band: &[u32; 2],
        place: &[u64; 3],
        numbers: &mut [u32; 609],
        customs: &mut [f32; 64],
        parts: &mut [u64; 320],
    ) -> u32;

    pub(crate) fn segvartin_call_desk_step(
        source: *const u8,
        source_len: usize,
        y: *mut u8,
        y_len: usize,
        u: *mut u8,
        u_len: usize,
        v: *mut u8,
        v_len: usize,
        carried: *mut u8,
        carried_len: usize,
        numbers: &mut [u32; 609],
        customs: &mut [f32; 64],
        parts: &mut [u64; 320],
        told: &mut [usize; 4],
    ) -> u32;

    pub(crate) fn segvartin_call_open(
        numbers: *const u32,
        numbers_len: usize,
        custom: &[f32; 2],
        told: &mut [usize; 3],
    ) -> u32;

    pub(crate) fn segvartin_call_band(
        numbers: *const u32,
        numbers_len: usize,
        custom: &[f32; 2],
        source: *const u8,
        source_len: usize,
        y: *mut u8,
        y_len: usize,
        u: *mut u8,
        u_len: usize,
        v: *mut u8,
        v_len: usize,
        carried: *mut u8,
        carried_len: usize,
        told: &mut [usize; 3],
    ) -> u32;

    pub(crate) fn segvartin_call_luma_counts(
        numbers: *const u32,
        numbers_len: usize,
        custom: &[f32; 2],
        counts: &mut [u32; 256],
        told: &mut [usize; 2],
    ) -> u32;

    pub(crate) fn segvartin_call_shift_records(
        file: *const u8,
        file_len: usize,
        first: usize,
        entries: *mut u64,
        entries_len: usize,
        told: &mut [usize; 2],
    ) -> u32;

    pub(crate) fn segvartin_call_shift_records_any(
        file: *const u8,
        file_len: usize,
        first: usize,
        entries: *mut u64,
        entries_len: usize,
        told: &mut [usize; 3],
    ) -> u32;

    pub(crate) fn segvartin_call_shift_write(
        records: *const u8,
        records_len: usize,
        file: *mut u8,
        file_len: usize,
        told: &mut [usize; 1],
    ) -> u32;

    pub(crate) fn segvartin_call_shift_write_settings(
        records: *const u8,
        records_len: usize,
        file: *mut u8,
        file_len: usize,
        told: &mut [usize; 1],
    ) -> u32;

    pub(crate) fn segvartin_call_shift_forward(
        file: *const u8,
        file_len: usize,
        output: *mut u8,
        output_len: usize,
        told: &mut [usize; 1],
    ) -> u32;

    pub(crate) fn segvartin_call_shift_back(
        file: *const u8,
        file_len: usize,
        output: *mut u8,
        output_len: usize,
        told: &mut [usize; 1],
    ) -> u32;

    pub(crate) fn segvartin_call_shift_record(
        numbers: &[u32; 6],
        y: *const u8,
        y_len: usize,
        u: *const u8,
        u_len: usize,
        v: *const u8,
        v_len: usize,
        record: *mut u8,
        record_len: usize,
        told: &mut [usize; 3],
    ) -> u32;

    pub(crate) fn segvartin_call_shift_record_settings(
        numbers: &[u32; 10],
        y: *const u8,
        y_len: usize,
        u: *const u8,
        u_len: usize,
        v: *const u8,
        v_len: usize,
        record: *mut u8,
        record_len: usize,
        told: &mut [usize; 3],
    ) -> u32;

    pub(crate) fn segvartin_call_summary_build(
        file: *const u8,
        file_len: usize,
        summary: *mut u8,
        summary_len: usize,
    ) -> u32;

    pub(crate) fn segvartin_call_summary_check(
        file: *const u8,
        file_len: usize,
        summary: *const u8,
        summary_len: usize,
        told: &mut [usize; 1],
    ) -> u32;

    pub(crate) fn segvartin_call_summary_find(
        file: *const u8,
        file_len: usize,
        summary: *const u8,
        summary_len: usize,
        crossing: u32,
        told: &mut [usize; 2],
    ) -> u32;

    pub(crate) fn segvartin_call_summary_update(
        file: *const u8,
        file_len: usize,
        added: *const u8,
        added_len: usize,
        summary: *mut u8,
        summary_len: usize,
    ) -> u32;

    pub(crate) fn segvartin_call_shift_pairs(
        ours: *const u8,
        ours_len: usize,
        theirs: *const u8,
        theirs_len: usize,
        report: &mut [u64; 18],
        told: &mut [usize; 1],
    ) -> u32;

    pub(crate) fn segvartin_call_y4m_pictures(
        file: *const u8,
        file_len: usize,
        first: usize,
        entries: *mut u64,
        entries_len: usize,
        told: &mut [usize; 5],
    ) -> u32;

    pub(crate) fn segvartin_call_y4m_write(
        numbers: &[u32; 3],
        pictures: *const u8,
        pictures_len: usize,
        output: *mut u8,
        output_len: usize,
        told: &mut [usize; 1],
    ) -> u32;

    pub(crate) fn segvartin_call_y4m_picture(
        numbers: &[u32; 6],
        y: *const u8,
        y_len: usize,
        u: *const u8,
        u_len: usize,
        v: *const u8,
        v_len: usize,
        output: *mut u8,
        output_len: usize,
        told: &mut [usize; 1],
    ) -> u32;
}
