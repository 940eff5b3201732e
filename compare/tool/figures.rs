//! The figures that 01 gives, asked of the model and, where a script can show them, of the Rust.

use crate::sides;
use generate::{Case, Script};
use model::numbers;
use model::stems::{Kind, Mask, Stem};
use model::zones::{Parameters, Zones};

fn case_of(script: Script, room: usize) -> Case {
    Case { family: 0, script: script.bytes(), room, fill: 7 }
}

fn usual(scale: i32) -> Script {
    Script { scale, blue_scale: 2597, shift: 458_752, fuzz: 65_536, ..Script::default() }
}

fn whole_case() -> Script {
    let mut script = usual(32_768);
    script.put(5, &[655_360, 1_310_720]);
    script.put(6, &[1_966_080, 1_310_720]);
    script.put(6, &[655_360, 1_310_720]);
    script.put(9, &[]);
    script
}

pub fn check() -> bool {
    let mut failed = Vec::new();
    let mut must = |name: &'static str, holds: bool| {
        if !holds {
            failed.push(name);
        }
    };
    for side in [Some(sides::MODEL), Some(sides::STAND_IN), sides::FETCHED].into_iter().flatten() {
        let answer = side.answer(&case_of(whole_case(), 12));
        must("whole case", answer.number == 0 && answer.place == 0);
        must("whole case's words", answer.words == [1, 4, 4, 8, 1, 327_680, 655_360, 2, 983_040, 655_360, 4, 5]);
        let answer = side.answer(&case_of(whole_case(), 11));
        must("whole case in 11 words", answer.number == 6 && answer.place == 25);
        let mut script = usual(2048);
        script.put(1, &[16 * 65_536, 80 * 65_536]);
        for height in [0, 16, 48, 80] {
            script.put(5, &[0, height * 65_536]);
        }
        let heights: Vec<i32> =
            side.answer(&case_of(script, 40)).words[4..].iter().skip(2).step_by(4).take(4).copied().collect();
        must("stem 16 to 80", heights == [32_768, 65_536, 131_072, 196_608]);
    }
    let given = Parameters { blue_scale: 2597, ..Parameters::default() };
    must("boost at scale 2048", Zones::new(&given, 2048).boost == 8313);
    must("boost at scale 1", Zones::new(&given, 1).boost == 32_767);
    must("output", [1023, 1024, -1].map(numbers::output) == [0, 1024, -1024]);
    must("round", numbers::round(-32_768) == 0);
    must("product", numbers::mul(-1, 32_768) == -1);
    let selected = |bytes: &[u8]| (0..96).filter(|&stem| Mask::from_bytes(bytes).selects(stem)).count();
    must("mask of 0 bytes", selected(&[]) == 0);
    must("mask of 13 bytes", selected(&[0; 13]) == 96);
    must("mask 0x80", selected(&[0x80]) == 1 && Mask::from_bytes(&[0x80]).selects(0));
    let edges = |min: i32, max: i32| {
        let (bottom, top) = Stem::new(min * 65_536, max * 65_536).edges(0, 65_536);
        (bottom.map(|edge| (edge.kind, edge.height / 65_536)), top.map(|edge| (edge.kind, edge.height / 65_536)))
    };
    must("bottom ghost", edges(100, 79) == (Some((Kind::BottomGhost, 79)), None));
    must("top ghost", edges(100, 80) == (None, Some((Kind::TopGhost, 100))));
    must("swapped pair", edges(100, 78) == (Some((Kind::PairBottom, 78)), Some((Kind::PairTop, 100))));
    match &failed[..] {
        [] => println!("The figures that 01 gives come out."),
        names => println!("Figures of 01 that do not come out: {names:?}"),
    }
    failed.is_empty()
}
