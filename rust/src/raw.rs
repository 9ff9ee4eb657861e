//! The C interface of the proved library, as include/ayresokum.h declares it. All unsafe code stands here.
//!
//! This file uses nothing of the crate: the tests, bench and compare/beside include it too, so that Rust has every record
//! and function of the interface written once. docs/BOUNDARY.md lists where else they stand.

/// The interface that this file declares: the header's AYRESOKUM_VERSION.
pub const VERSION: u32 = 2;

/// Settings with numbers in place of the enumerations.
#[repr(C)]
#[derive(Debug, Clone, Copy)]
pub struct SettingsNumbers {
    pub depth: u32,
    pub precision: u32,
    pub matrix: u32,
    pub kr: f32,
    pub kb: f32,
    pub range: u32,
    pub subsampling: u32,
    pub order: u32,
    pub packing: u32,
    pub byte_order: u32,
    pub channels: u32,
}

/// A window on a source: its size in pixels, the strides of the buffers in u16 elements, its corner, and the rows of the source.
///
/// A frame is whole where its corner is 0, 0 and the source has as many rows as the frame. What lies outside the window is
/// never read. Elements of a plane past the visible ones of a row are padding, and never written. On the way back the RGB
/// buffer takes the source's place, and what lies outside the window is never written.
#[repr(C)]
#[derive(Debug, Clone, Copy, PartialEq, Eq)]
pub struct Frame {
    /// Pixels in a row of the window: 1 to 16,384.
    pub width: usize,
    /// Rows of the window: 1 to 16,384.
    pub height: usize,
    /// From one source row to the next: at least the pixels before the window and those of its width, and at most 65,536,
    /// as are the other two.
    pub source_stride: usize,
    /// From one luma row to the next.
    pub luma_stride: usize,
    /// From one chroma row to the next.
    pub chroma_stride: usize,
    /// Pixels of a source row before the window: at most 16,384.
    pub first_column: usize,
    /// Rows of the source before the window: at most 16,384.
    pub first_row: usize,
    /// Rows of the source in all: at least those before the window and its height, and at most 16,384.
    pub source_rows: usize,
}

/// The refusal's number, or 0, and the weights of red, green and blue in luma, in Cb and in Cr, all 0 on a refusal.
#[repr(C)]
#[derive(Debug, Clone, Copy)]
pub struct SettledNumbers {
    pub refusal: u32,
    pub weights: [i32; 9],
}

/// Where a sample of the source stands: its row and its pixel in the row, counted from the window's corner, and its channel, 0
/// red, 1 green or 2 blue.
#[repr(C)]
#[derive(Debug, Clone, Copy, PartialEq, Eq)]
pub struct SampleNumbers {
    pub row: u32,
    pub pixel: u32,
    pub channel: u32,
}

/// Where a sample of a plane stands: the plane, 0 luma or 1 chroma, its row, and its element in the row.
#[repr(C)]
#[derive(Debug, Clone, Copy, PartialEq, Eq)]
pub struct PlaceNumbers {
    pub plane: u32,
    pub row: u32,
    pub element: u32,
}

/// The refusal's number, or 0; and with refusal 10 the first sample that is too large. What does not apply is 0.
#[repr(C)]
#[derive(Debug, Clone, Copy)]
pub struct ConvertedNumbers {
    pub refusal: u32,
    pub sample: SampleNumbers,
}

/// How many frames of a ring are written, all from the first on; the number of the refusal that ended it, or 0; and with
/// refusal 10 the first sample that is too large, in frame number `written`. What does not apply is 0.
#[repr(C)]
#[derive(Debug, Clone, Copy)]
pub struct RingNumbers {
    pub written: u32,
    pub refusal: u32,
    pub sample: SampleNumbers,
}

/// The refusal's number, or 0; 1 where a sample is wrong, and the place of the first wrong one; and with refusal 10 the first
/// sample that is too large. What does not apply is 0.
#[repr(C)]
#[derive(Debug, Clone, Copy)]
pub struct CheckedNumbers {
    pub refusal: u32,
    pub wrong: u32,
    pub place: PlaceNumbers,
    pub sample: SampleNumbers,
}

/// The refusal's number, or 0; and with refusal 13 the first sample that is not well formed. What does not apply is 0.
#[repr(C)]
#[derive(Debug, Clone, Copy)]
pub struct RestoredNumbers {
    pub refusal: u32,
    pub place: PlaceNumbers,
}

extern "C" {
    fn ayresokum_version() -> u32;

    fn ayresokum_settle(settings: SettingsNumbers) -> SettledNumbers;

    fn ayresokum_convert(
        settings: SettingsNumbers,
        frame: Frame,
        source: *const u16,
        source_length: usize,
        luma: *mut u16,
        luma_length: usize,
        chroma: *mut u16,
        chroma_length: usize,
    ) -> ConvertedNumbers;

    fn ayresokum_convert_ring(
        settings: SettingsNumbers,
        frame: Frame,
        count: usize,
        source: *const u16,
        source_length: usize,
        luma: *mut u16,
        luma_length: usize,
        chroma: *mut u16,
        chroma_length: usize,
    ) -> RingNumbers;

    fn ayresokum_check(
        settings: SettingsNumbers,
        frame: Frame,
        source: *const u16,
        source_length: usize,
        luma: *const u16,
        luma_length: usize,
        chroma: *const u16,
        chroma_length: usize,
    ) -> CheckedNumbers;

    fn ayresokum_to_rgb(
        settings: SettingsNumbers,
        frame: Frame,
        luma: *const u16,
        luma_length: usize,
        chroma: *const u16,
        chroma_length: usize,
        rgb: *mut u16,
        rgb_length: usize,
    ) -> RestoredNumbers;
}

fn assert_version(linked: u32) {
    assert!(
        linked == VERSION,
        "libayresokum has interface {linked}, and this crate was written for {VERSION}: build both from one commit"
    );
}

/// Panics where the linked library has another interface, whose records could not be read.
fn assert_linked_version() {
    // SAFETY: every library that has this function takes nothing and answers with a u32.
    assert_version(unsafe { ayresokum_version() });
}

pub fn settle(settings: SettingsNumbers) -> SettledNumbers {
    assert_linked_version();
    // SAFETY: everything is passed by value, in the library's layout.
    unsafe { ayresokum_settle(settings) }
}

pub fn convert(
    settings: SettingsNumbers,
    frame: Frame,
    source: &[u16],
    luma: &mut [u16],
    chroma: &mut [u16],
) -> ConvertedNumbers {
    assert_linked_version();
    // SAFETY: each pointer comes from a slice, with the length of that slice, and the slices do not overlap, since two
    // of them are lent mutably. The library keeps no pointer.
    unsafe {
        ayresokum_convert(
            settings,
            frame,
            source.as_ptr(),
            source.len(),
            luma.as_mut_ptr(),
            luma.len(),
            chroma.as_mut_ptr(),
            chroma.len(),
        )
    }
}

pub fn convert_ring(
    settings: SettingsNumbers,
    frame: Frame,
    count: usize,
    source: &[u16],
    luma: &mut [u16],
    chroma: &mut [u16],
) -> RingNumbers {
    assert_linked_version();
    // SAFETY: as for `convert`. The library takes no more frames than the lengths hold, whatever the count is.
    unsafe {
        ayresokum_convert_ring(
            settings,
            frame,
            count,
            source.as_ptr(),
            source.len(),
            luma.as_mut_ptr(),
            luma.len(),
            chroma.as_mut_ptr(),
            chroma.len(),
        )
    }
}

pub fn check(
    settings: SettingsNumbers,
    frame: Frame,
    source: &[u16],
    luma: &[u16],
    chroma: &[u16],
) -> CheckedNumbers {
    assert_linked_version();
    // SAFETY: each pointer comes from a slice, with the length of that slice. The library writes to none and keeps none.
    unsafe {
        ayresokum_check(
            settings,
            frame,
            source.as_ptr(),
            source.len(),
            luma.as_ptr(),
            luma.len(),
            chroma.as_ptr(),
            chroma.len(),
        )
    }
}

pub fn to_rgb(
    settings: SettingsNumbers,
    frame: Frame,
    luma: &[u16],
    chroma: &[u16],
    rgb: &mut [u16],
) -> RestoredNumbers {
    assert_linked_version();
    // SAFETY: each pointer comes from a slice, with the length of that slice. The library writes to the last one alone, which
    // overlaps neither of the others, since it is lent mutably, and keeps none.
    unsafe {
        ayresokum_to_rgb(
            settings,
            frame,
            luma.as_ptr(),
            luma.len(),
            chroma.as_ptr(),
            chroma.len(),
            rgb.as_mut_ptr(),
            rgb.len(),
        )
    }
}

#[cfg(test)]
mod tests {
    use super::*;

    #[test]
    fn same_version() {
        assert_version(VERSION);
        assert_linked_version();
    }

    #[test]
    #[should_panic(
        expected = "libayresokum has interface 0, and this crate was written for 2: build both from one commit"
    )]
    fn another_version() {
        assert_version(0);
    }
}
