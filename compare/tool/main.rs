//! The tool that compares: numbers with numbers, the model with the Rust, and any command with the model.

mod batch;
mod coverage;
mod figures;
mod numbers;
mod reduce;
mod sample;
mod scripts;
mod sides;

/// What the tool ends with: all agrees; something differs; the words given are wrong; a part could
/// not be had or started.
const AGREED: i32 = 0;
const DIFFERS: i32 = 1;
const USAGE: i32 = 2;
const CANNOT: i32 = 3;

/// The seed of all scripts, unless COMPARE_SEED gives another.
const SEED: u64 = 100_057_371_820_517;

fn seed() -> u64 {
    std::env::var("COMPARE_SEED").ok().and_then(|text| text.parse().ok()).unwrap_or(SEED)
}

/// Ends the tool, since nothing can be said about agreement.
fn cannot(why: &str) -> ! {
    eprintln!("compare: {why}");
    std::process::exit(CANNOT)
}

fn usage() -> ! {
    eprintln!("usage: compare figures                  the figures that 01 gives");
    eprintln!("       compare numbers MILLIONS");
    eprintln!("       compare scripts COUNT            the model with the Rust");
    eprintln!(
        "       compare against COUNT COMMAND    a command that speaks the batch protocol, with the model and the Rust"
    );
    eprintln!("       compare program COUNT COMMAND    a program that reads one script, with the model and the Rust");
    eprintln!("       compare detect COUNT COMMAND     the first case on which such a command differs from the Rust");
    eprintln!("       compare once SIDE                reads one script and answers like the program");
    eprintln!("       compare answer SIDE              speaks the protocol; SIDE: model, stand-in or fetched");
    eprintln!("       compare reduce FILE              the smallest script near FILE on which model and Rust differ");
    eprintln!(
        "       compare sample COUNT SIZE OLD NEW  keeps the cases of OLD, adds to SIZE among COUNT, and writes NEW"
    );
    eprintln!("       compare coverage COUNT           which places of the Rust file are reached");
    eprintln!(
        "COMMAND may be several words. Status 0: all agrees; 1: something differs; 3: a part cannot be had or started."
    );
    std::process::exit(USAGE)
}

fn main() {
    let given: Vec<String> = std::env::args().skip(1).collect();
    let words: Vec<&str> = given.iter().map(String::as_str).collect();
    let count = |text: &str| text.parse::<u64>().unwrap_or_else(|_| usage());
    let agreed = match words[..] {
        ["figures"] => figures::check(),
        ["numbers", millions] => numbers::compare(count(millions)),
        ["scripts", number] => scripts::compare(seed(), count(number)),
        ["against", number, command, ref rest @ ..] => batch::against(seed(), count(number), command, rest),
        ["program", number, command, ref rest @ ..] => batch::program(seed(), count(number), command, rest),
        ["detect", number, command, ref rest @ ..] => batch::detect(seed(), count(number), command, rest),
        ["answer", side] => generate::batch::serve(sides::by_name(side).unwrap_or_else(|| usage()).run),
        ["once", side] => sides::once(sides::by_name(side).unwrap_or_else(|| usage())),
        ["reduce", file] => reduce::file(file),
        ["sample", number, size, old, new] => sample::write(seed(), count(number), count(size) as usize, old, new),
        ["coverage", number] => coverage::print(seed(), count(number)),
        _ => usage(),
    };
    std::process::exit(if agreed { AGREED } else { DIFFERS });
}
