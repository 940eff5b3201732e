//! A script taken apart, and put together again.

#[derive(Clone, Debug, PartialEq)]
pub struct Command {
    pub kind: i32,
    pub operands: Vec<i32>,
}

#[derive(Clone, Debug, Default, PartialEq)]
pub struct Script {
    pub scale: i32,
    pub blue_scale: i32,
    pub shift: i32,
    pub fuzz: i32,
    pub group: i32,
    pub lists: [Vec<(i32, i32)>; 4],
    pub commands: Vec<Command>,
    pub masks: Vec<u8>,
}

pub fn operand_count(kind: i32) -> usize {
    match kind {
        1 | 2 | 3 | 5 | 6 => 2,
        7 => 6,
        _ => 0,
    }
}

impl Script {
    pub fn put(&mut self, kind: i32, operands: &[i32]) {
        self.commands.push(Command { kind, operands: operands.to_vec() });
    }

    pub fn words(&self) -> Vec<i32> {
        let mut parameters = vec![self.blue_scale, self.shift, self.fuzz, self.group];
        parameters.extend(self.lists.iter().map(|list| list.len() as i32));
        parameters.extend(self.lists.iter().flatten().flat_map(|pair| [pair.0, pair.1]));
        let mut commands = Vec::new();
        for command in &self.commands {
            commands.push(command.kind);
            commands.extend(&command.operands);
        }
        let at_commands = 8 + parameters.len() as i32;
        let at_masks = at_commands + commands.len() as i32;
        let mut words = vec![1, self.scale, 8, parameters.len() as i32, at_commands];
        words.extend([commands.len() as i32, at_masks, self.masks.len() as i32]);
        words.extend(parameters);
        words.extend(commands);
        for four in self.masks.chunks(4) {
            let mut bytes = [0; 4];
            bytes[..four.len()].copy_from_slice(four);
            words.push(i32::from_le_bytes(bytes));
        }
        words
    }

    pub fn bytes(&self) -> Vec<u8> {
        self.words().iter().flat_map(|word| word.to_le_bytes()).collect()
    }

    /// Takes apart a script that is known to pass every check.
    pub fn parse(script: &[u8]) -> Script {
        let words: Vec<i32> =
            script.chunks_exact(4).map(|four| i32::from_le_bytes([four[0], four[1], four[2], four[3]])).collect();
        let mut made = Script {
            scale: words[1],
            blue_scale: words[8],
            shift: words[9],
            fuzz: words[10],
            group: words[11],
            ..Script::default()
        };
        let mut at = 16;
        for (list, &count) in made.lists.iter_mut().zip(&words[12..16]) {
            for _ in 0..count {
                list.push((words[at], words[at + 1]));
                at += 2;
            }
        }
        let end = words[6] as usize;
        while at < end {
            let count = operand_count(words[at]);
            made.put(words[at], &words[at + 1..at + 1 + count]);
            at += 1 + count;
        }
        made.masks = script[end * 4..end * 4 + words[7] as usize].to_vec();
        made
    }

    /// As many words as the result can have at most.
    pub fn most_words(&self) -> usize {
        let most = |command: &Command| match command.kind {
            5 => 7,
            6 => 3,
            7 => 10,
            9 => 5,
            _ => 0,
        };
        4 + self.commands.iter().map(most).sum::<usize>()
    }

    /// The words as text, with a bar between header, parameters, pairs, commands and masks.
    pub fn text(&self) -> String {
        let words = self.words();
        let pairs = 16 + 2 * self.lists.iter().map(Vec::len).sum::<usize>();
        let masks = words[6] as usize;
        let parts = [&words[..8], &words[8..16], &words[16..pairs], &words[pairs..masks], &words[masks..]];
        let shown: Vec<String> = parts.iter().filter(|part| !part.is_empty()).map(|part| join(part)).collect();
        shown.join(" | ")
    }
}

pub fn join(words: &[i32]) -> String {
    words.iter().map(|word| word.to_string()).collect::<Vec<_>>().join(" ")
}
