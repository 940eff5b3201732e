//! The model behind the entry that the adapter calls, so that the adapter can be tried without the library.

/// The pointers must be valid for the lengths given.
#[no_mangle]
pub unsafe extern "C" fn spoonglacier_run(
    script: *const u8,
    length: usize,
    out: *mut i32,
    room: usize,
    place: *mut usize,
) -> u32 {
    let script = std::slice::from_raw_parts(script, length);
    let out = std::slice::from_raw_parts_mut(out, room);
    let (number, at) = model::run(script, out);
    *place = at as usize;
    number as u32
}
