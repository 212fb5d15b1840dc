//! The proved library, through the C declarations of its archive.
//!
//! The one file with `unsafe` in it. Without the feature `proved` nothing is linked, and
//! [`linked`] says so.

/// The recording, the drill, the answer buffer, the work buffer, and a place for the counts:
/// returns document 01's number, and writes zones and rounds into the first two counts. With fewer
/// than two counts it returns [`NO_ROOM`] and does nothing.
pub type Find = fn(&[u8], &[u8], &mut [i32], &mut [i32], &mut [u64]) -> u32;

/// The same for a drill that is told the rounds left. They stand behind the drill, before the call and
/// afterwards.
pub type Within = fn(&[u8], &[u8], &mut u64, &mut [i32], &mut [i32], &mut [u64]) -> u32;

/// The recording, the text of the sheet, the answer buffer, the work buffer, a place for what is
/// printed, and one for its size: returns 0, 1, 2, 3 or 12. With fewer than [`LESSON_ROOM`] bytes of
/// place it returns [`NO_ROOM`] and does nothing.
pub type Lesson = fn(&[u8], &[u8], &mut [i32], &mut [i32], &mut [u8], &mut u64) -> u32;

/// The calls of the proved library.
#[derive(Clone, Copy)]
pub struct Proved {
    pub find: Find,
    /// The words of the filled front of the answer buffer, told the number of zones.
    pub front: fn(&[i32], usize) -> usize,
    pub within: Within,
    pub lesson: Lesson,
}

/// What a call returns that has no place for its counts, or for what it prints.
pub const NO_ROOM: u32 = u32::MAX;
/// Bytes that a lesson wants for what it prints: eight results, each after its number and a newline.
pub const LESSON_ROOM: usize = 8 * (12_288 + 2);

/// The proved library, if it is linked.
pub fn linked() -> Option<Proved> {
    #[cfg(feature = "proved")]
    return Some(Proved {
        find: archive::find,
        front: archive::front,
        within: archive::within,
        lesson: archive::lesson,
    });
    #[cfg(not(feature = "proved"))]
    None
}

#[cfg(feature = "proved")]
#[allow(unsafe_code)]
mod archive {
    extern "C" {
        fn zikpasho_find(
            recording: *const u8,
            recording_len: usize,
            drill: *const u8,
            drill_len: usize,
            answer: *mut i32,
            answer_len: usize,
            work: *mut i32,
            work_len: usize,
            counts: *mut u64,
            counts_len: usize,
        ) -> u32;

        fn zikpasho_front(answer: *const i32, answer_len: usize, zones: usize) -> usize;

        fn zikpasho_within(
            recording: *const u8,
            recording_len: usize,
            drill: *const u8,
            drill_len: usize,
            left: *mut u64,
            answer: *mut i32,
            answer_len: usize,
            work: *mut i32,
            work_len: usize,
            counts: *mut u64,
            counts_len: usize,
        ) -> u32;

        fn zikpasho_lesson(
            recording: *const u8,
            recording_len: usize,
            text: *const u8,
            text_len: usize,
            answer: *mut i32,
            answer_len: usize,
            work: *mut i32,
            work_len: usize,
            out: *mut u8,
            out_len: usize,
            size: *mut u64,
        ) -> u32;
    }

    pub fn find(
        recording: &[u8],
        drill: &[u8],
        answer: &mut [i32],
        work: &mut [i32],
        counts: &mut [u64],
    ) -> u32 {
        // SAFETY: each pointer comes with the length of the slice that it is the start of. The
        // three that are written through are borrowed mutably, so none overlaps another slice,
        // and the callee keeps none of them. It asks nothing else of a caller.
        unsafe {
            zikpasho_find(
                recording.as_ptr(),
                recording.len(),
                drill.as_ptr(),
                drill.len(),
                answer.as_mut_ptr(),
                answer.len(),
                work.as_mut_ptr(),
                work.len(),
                counts.as_mut_ptr(),
                counts.len(),
            )
        }
    }

    pub fn front(answer: &[i32], zones: usize) -> usize {
        // SAFETY: the pointer comes with the length of its slice, and any number may be told.
        unsafe { zikpasho_front(answer.as_ptr(), answer.len(), zones) }
    }

    pub fn within(
        recording: &[u8],
        drill: &[u8],
        left: &mut u64,
        answer: &mut [i32],
        work: &mut [i32],
        counts: &mut [u64],
    ) -> u32 {
        // SAFETY: each pointer comes with the length of the slice that it is the start of, but for
        // that of the rounds left, which is to one number. The four that are written through are
        // borrowed mutably, so none overlaps anything else, and the callee keeps none of them. It
        // asks nothing else of a caller.
        unsafe {
            zikpasho_within(
                recording.as_ptr(),
                recording.len(),
                drill.as_ptr(),
                drill.len(),
                left,
                answer.as_mut_ptr(),
                answer.len(),
                work.as_mut_ptr(),
                work.len(),
                counts.as_mut_ptr(),
                counts.len(),
            )
        }
    }

    pub fn lesson(
        recording: &[u8],
        text: &[u8],
        answer: &mut [i32],
        work: &mut [i32],
        out: &mut [u8],
        size: &mut u64,
    ) -> u32 {
        // SAFETY: each pointer comes with the length of the slice that it is the start of, but for
        // that of the size, which is to one number. The four that are written through are borrowed
        // mutably, so none overlaps anything else, and the callee keeps none of them. It asks
        // nothing else of a caller.
        unsafe {
            zikpasho_lesson(
                recording.as_ptr(),
                recording.len(),
                text.as_ptr(),
                text.len(),
                answer.as_mut_ptr(),
                answer.len(),
                work.as_mut_ptr(),
                work.len(),
                out.as_mut_ptr(),
                out.len(),
                size,
            )
        }
    }
}
