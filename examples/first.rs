//! Hints a first script through the static library and prints its answer: number and place, then
//! the words of the result. The script is that of stem.bin; docs/SCRIPT.md explains its words.

extern "C" {
    fn spoonglacier_run(
        script: *const u8,
        script_bytes: usize,
        out: *mut i32,
        out_words: usize,
        place: *mut usize,
    ) -> u32;
}

/// What include/spoonglacier.h names.
const OK: u32 = 0;
const ONE: i32 = 65536;
const SCRIPT_VERSION: i32 = 1;
const STEM: i32 = 1;
const MOVE: i32 = 5;
const LINE: i32 = 6;
const FINISH: i32 = 9;
const RESULT_HEADER_WORDS: usize = 4;
const fn room(commands: usize) -> usize {
    RESULT_HEADER_WORDS + 10 * commands
}

#[rustfmt::skip]
const WORDS: [i32; 32] = [
    // Header: version, scale 1/32, 8 parameter words at 8, 16 command words at 16, no mask bytes.
    SCRIPT_VERSION, 2048, 8, 8, 16, 16, 32, 0,
    // Parameters: blue scale, shift, fuzz, language group, and four lists without pairs.
    2597, 7 * ONE, 1 * ONE, 0, 0, 0, 0, 0,
    // Commands: a stem from 16 to 80, and a path along both its edges.
    STEM, 16 * ONE, 80 * ONE,
    MOVE, 0, 16 * ONE,
    LINE, 100 * ONE, 16 * ONE,
    LINE, 100 * ONE, 80 * ONE,
    LINE, 0, 80 * ONE,
    FINISH,
];
const COMMANDS: usize = 6;

/// The answer's number and place. Both slices are good for their lengths and cannot overlap, and
/// `place` is a local.
fn run(script: &[u8], out: &mut [i32]) -> (u32, usize) {
    let mut place = 0;
    let number = unsafe { spoonglacier_run(script.as_ptr(), script.len(), out.as_mut_ptr(), out.len(), &mut place) };
    (number, place)
}

fn main() {
    let script: Vec<u8> = WORDS.iter().flat_map(|word| word.to_le_bytes()).collect();
    let mut out = [0i32; room(COMMANDS)];
    let (number, place) = run(&script, &mut out);
    print!("{number} at {place}:");
    if number == OK {
        for word in &out[..RESULT_HEADER_WORDS + out[3] as usize] {
            print!(" {word}");
        }
    }
    println!();
    std::process::exit((number != OK) as i32);
}
