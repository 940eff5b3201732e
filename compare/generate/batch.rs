//! The batch protocol: cases come in on one stream and answers go out on another.

use crate::{lent_word, Case};
use std::io::{BufReader, BufWriter, Read, Write};

fn read_word(from: &mut impl Read) -> Option<i32> {
    let mut bytes = [0; 4];
    from.read_exact(&mut bytes).ok()?;
    Some(i32::from_le_bytes(bytes))
}

/// A case as the protocol sends it.
pub fn request(case: &Case) -> Vec<u8> {
    let header = [case.script.len() as i32, case.room as i32, case.fill as i32];
    let mut bytes: Vec<u8> = header.iter().flat_map(|word| word.to_le_bytes()).collect();
    bytes.extend(&case.script);
    bytes
}

/// Answers cases from standard input until it ends, and says whether all went well.
pub fn serve(run: impl Fn(&[u8], &mut [i32]) -> (i32, i32)) -> bool {
    let mut input = BufReader::new(std::io::stdin().lock());
    let mut output = BufWriter::new(std::io::stdout().lock());
    while let Some(length) = read_word(&mut input) {
        let (Some(room), Some(fill)) = (read_word(&mut input), read_word(&mut input)) else { return false };
        let mut script = vec![0; length as usize];
        if input.read_exact(&mut script).is_err() {
            return false;
        }
        let mut words: Vec<i32> = (0..room as u32).map(|place| lent_word(fill as u32, place)).collect();
        let (number, place) = run(&script, &mut words);
        let answer = [number, place].into_iter().chain(words);
        let bytes: Vec<u8> = answer.flat_map(|word| word.to_le_bytes()).collect();
        if output.write_all(&bytes).is_err() {
            return false;
        }
    }
    output.flush().is_ok()
}
