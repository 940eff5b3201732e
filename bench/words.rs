//! A word of labels in the lists that a label run takes.

use generate::Script;

/// The numbers, the counts, and four lists with room for seven pairs each.
pub const PARAMS: usize = 64;
const LIST: usize = 14;

pub struct Word {
    pub scale: i32,
    pub params: [i32; PARAMS],
    pub commands: Vec<i32>,
    pub masks: Vec<u8>,
    pub lengths: Vec<i32>,
}

fn params_of(face: &Script) -> [i32; PARAMS] {
    let mut params = [0; PARAMS];
    params[..4].copy_from_slice(&[face.blue_scale, face.shift, face.fuzz, face.group]);
    for (number, list) in face.lists.iter().enumerate() {
        params[4 + number] = list.len() as i32;
        for (at, &(bottom, top)) in list.iter().enumerate() {
            let place = 8 + LIST * number + 2 * at;
            params[place..place + 2].copy_from_slice(&[bottom, top]);
        }
    }
    params
}

impl Word {
    /// The letters must be of one face at one size.
    pub fn of(letters: &[Script]) -> Word {
        let face = &letters[0];
        let (mut commands, mut masks, mut lengths) = (Vec::new(), Vec::new(), Vec::new());
        for letter in letters {
            let first = commands.len();
            for command in &letter.commands {
                commands.push(command.kind);
                commands.extend(&command.operands);
            }
            masks.extend(&letter.masks);
            lengths.extend([(commands.len() - first) as i32, letter.masks.len() as i32]);
        }
        Word { scale: face.scale, params: params_of(face), commands, masks, lengths }
    }
}
