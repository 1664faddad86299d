//! The functions of the static library, as `include/surface_table.h` declares them.
//!
//! A slice is a pointer and a count of elements. The library tests all that it is lent except what
//! no code could test: that pointers are valid for their counts, and that no buffer that is written
//! overlaps another.

/// Makes a call of the static library: its numbers; the slices that it reads; those that it fills.
/// That is the order of every function's parameters.
macro_rules! call {
    ($function:ident($($number:ident),*; $($read:ident),*; $($filled:ident),*)) => {
        // SAFETY: each pointer is a slice's, with its length; what is filled is borrowed mutably, so
        // it overlaps nothing.
        unsafe {
            $crate::exported::$function(
                $($number,)*
                $($read.as_ptr(), $read.len(),)*
                $($filled.as_mut_ptr(), $filled.len(),)*
            )
        }
    };
}

pub(crate) use call;

unsafe extern "C" {
    pub fn surface_decode(
        vertices: usize,
        ends: *const u16,
        ends_count: usize,
        marks: *const u8,
        marks_count: usize,
        open: *const u8,
        open_count: usize,
        syndrome: *const u8,
        syndrome_count: usize,
        loss: *const u8,
        loss_count: usize,
        support: *mut u8,
        support_count: usize,
        correction: *mut u8,
        correction_count: usize,
    ) -> u64;

    pub fn surface_decode_rounds(
        vertices: usize,
        ends: *const u16,
        ends_count: usize,
        marks: *const u8,
        marks_count: usize,
        open: *const u8,
        open_count: usize,
        syndrome: *const u8,
        syndrome_count: usize,
        loss: *const u8,
        loss_count: usize,
        support: *mut u8,
        support_count: usize,
        correction: *mut u8,
        correction_count: usize,
    ) -> u64;

    pub fn surface_decode_packed(
        vertices: usize,
        ends: *const u16,
        ends_count: usize,
        marks: *const u8,
        marks_count: usize,
        open: *const u8,
        open_count: usize,
        syndrome_words: *const u64,
        syndrome_words_count: usize,
        loss_words: *const u64,
        loss_words_count: usize,
        support: *mut u8,
        support_count: usize,
        correction: *mut u8,
        correction_count: usize,
    ) -> u64;

    pub fn surface_verdict(
        vertices: usize,
        ends: *const u16,
        ends_count: usize,
        marks: *const u8,
        marks_count: usize,
        open: *const u8,
        open_count: usize,
        syndrome: *const u8,
        syndrome_count: usize,
        loss: *const u8,
        loss_count: usize,
        handed: *const u8,
        handed_count: usize,
    ) -> u64;

    pub fn surface_faces(
        side: u32,
        syndrome: *const u8,
        syndrome_count: usize,
        loss: *const u8,
        loss_count: usize,
        handed: *const u8,
        handed_count: usize,
        faces: *mut u8,
        faces_count: usize,
    ) -> u64;

    pub fn surface_distance(
        vertices: usize,
        ends: *const u16,
        ends_count: usize,
        marks: *const u8,
        marks_count: usize,
        open: *const u8,
        open_count: usize,
        shown: *mut u8,
        shown_count: usize,
    ) -> u64;

    pub fn surface_torus(
        side: u32,
        ends: *mut u16,
        ends_count: usize,
        marks: *mut u8,
        marks_count: usize,
    ) -> u64;

    pub fn surface_planar(
        side: u32,
        ends: *mut u16,
        ends_count: usize,
        marks: *mut u8,
        marks_count: usize,
        open: *mut u8,
        open_count: usize,
    ) -> u64;

    pub fn surface_stack(
        side: u32,
        rounds: u32,
        readings: *const u8,
        readings_count: usize,
        ends: *mut u16,
        ends_count: usize,
        marks: *mut u8,
        marks_count: usize,
        syndrome: *mut u8,
        syndrome_count: usize,
    ) -> u64;

    pub fn surface_read(
        text: *const u8,
        text_count: usize,
        ends: *mut u16,
        ends_count: usize,
        marks: *mut u8,
        marks_count: usize,
        open: *mut u8,
        open_count: usize,
        syndrome: *mut u8,
        syndrome_count: usize,
        loss: *mut u8,
        loss_count: usize,
    ) -> u64;

    pub fn surface_write(
        vertices: usize,
        ends: *const u16,
        ends_count: usize,
        marks: *const u8,
        marks_count: usize,
        open: *const u8,
        open_count: usize,
        syndrome: *const u8,
        syndrome_count: usize,
        loss: *const u8,
        loss_count: usize,
        text: *mut u8,
        text_count: usize,
    ) -> u64;

    pub fn surface_pack(
        vertices: usize,
        edges: usize,
        syndrome: *const u8,
        syndrome_count: usize,
        loss: *const u8,
        loss_count: usize,
        syndrome_words: *mut u64,
        syndrome_words_count: usize,
        loss_words: *mut u64,
        loss_words_count: usize,
    ) -> u64;

    pub fn surface_unpack(
        vertices: usize,
        edges: usize,
        syndrome_words: *const u64,
        syndrome_words_count: usize,
        loss_words: *const u64,
        loss_words_count: usize,
        syndrome: *mut u8,
        syndrome_count: usize,
        loss: *mut u8,
        loss_count: usize,
    ) -> u64;

    pub fn surface_lit_total(
        vertices: usize,
        syndrome_words: *const u64,
        syndrome_words_count: usize,
    ) -> u64;

    pub fn surface_list_lit(
        vertices: usize,
        syndrome_words: *const u64,
        syndrome_words_count: usize,
        list: *mut u16,
        list_count: usize,
    ) -> u64;

    pub fn surface_game(
        vertices: usize,
        ends: *const u16,
        ends_count: usize,
        marks: *const u8,
        marks_count: usize,
        open: *const u8,
        open_count: usize,
        position: *const u8,
        position_count: usize,
    ) -> u64;

    pub fn surface_trap(
        vertices: usize,
        ends: *const u16,
        ends_count: usize,
        marks: *const u8,
        marks_count: usize,
        open: *const u8,
        open_count: usize,
        loss: *const u8,
        loss_count: usize,
        set: *mut u8,
        set_count: usize,
    ) -> u64;
}
