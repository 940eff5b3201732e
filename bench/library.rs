//! Calls of the static library, each of which says whether it answers OK.

use crate::words::Word;

extern "C" {
    fn spoonglacier_run(
        script: *const u8,
        script_bytes: usize,
        out: *mut i32,
        out_words: usize,
        place: *mut usize,
    ) -> u32;
    fn spoonglacier_labels(
        scale: i32,
        params: *const i32,
        params_words: usize,
        commands: *const i32,
        command_words: usize,
        masks: *const u8,
        mask_bytes: usize,
        lengths: *const i32,
        length_words: usize,
        out: *mut i32,
        out_words: usize,
        written: *mut usize,
        glyph: *mut usize,
        place: *mut usize,
    ) -> u32;
}

pub fn run(script: &[u8], out: &mut [i32]) -> bool {
    let mut place = 0;
    unsafe { spoonglacier_run(script.as_ptr(), script.len(), out.as_mut_ptr(), out.len(), &mut place) == 0 }
}

pub fn run_labels(word: &Word, out: &mut [i32]) -> bool {
    let (mut written, mut glyph, mut place) = (0, 0, 0);
    let answer = unsafe {
        spoonglacier_labels(
            word.scale,
            word.params.as_ptr(),
            word.params.len(),
            word.commands.as_ptr(),
            word.commands.len(),
            word.masks.as_ptr(),
            word.masks.len(),
            word.lengths.as_ptr(),
            word.lengths.len(),
            out.as_mut_ptr(),
            out.len(),
            &mut written,
            &mut glyph,
            &mut place,
        )
    };
    answer == 0
}
