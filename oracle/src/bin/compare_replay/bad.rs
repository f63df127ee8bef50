//! Bad lines of every kind.

use oracle::random::Random;
use oracle::replay::Line;

/// Makes a bad line of a good one, or in its stead.
type Spoil = fn(&mut Random, Line) -> Vec<u8>;

/// The kinds of bad lines that may come at any place, by name.
pub const KINDS: [(&str, Spoil); 21] = [
    ("empty line", |_, _| Vec::new()),
    ("unknown word", |random, _| {
        random
            .pick(&["halt", "gets", "ge", "held", "steps 0", "new"])
            .into()
    }),
    ("upper case", |_, line| {
        line.to_string().to_uppercase().into()
    }),
    ("leading space", |_, line| format!(" {line}").into()),
    ("trailing space", |_, line| format!("{line} ").into()),
    ("double space", |random, _| {
        with_number(random).replacen(' ', "  ", 1).into()
    }),
    ("tab", |random, _| {
        with_number(random).replacen(' ', "\t", 1).into()
    }),
    ("carriage return", |_, line| format!("{line}\r").into()),
    ("missing field", |random, _| {
        cut(&with_number(random)).into()
    }),
    ("field too many", |_, line| format!("{line} 0").into()),
    ("sign", |random, _| {
        let sign = random.pick(&["-", "+"]);
        format!("{} {sign}1", cut(&with_number(random))).into()
    }),
    ("no digits", |random, _| {
        let field = random.pick(&["x", "0x1", "1.", "1e0", "1_0", "1,0", "p"]);
        format!("{} {field}", cut(&with_number(random))).into()
    }),
    ("p above its limit", |random, _| {
        let p = above(random, u32::MAX.into());
        let call = random.pick(&["flush", "step", "run"]);
        format!("{call} {p}").into()
    }),
    ("offer's p above its limit", |random, _| {
        format!("offer {} 1 0", above(random, u32::MAX.into())).into()
    }),
    ("kind above 255", |random, _| {
        format!("offer 0 {} 0", above(random, 255)).into()
    }),
    ("L above 65,535", |random, _| {
        format!("offer 0 1 {}", above(random, 65_535)).into()
    }),
    ("start above its limit", |random, _| {
        format!("new 64 2 1 {}", above(random, u32::MAX.into())).into()
    }),
    ("S, N or P above its limit", |random, _| {
        let much = above(random, u32::MAX.into());
        let mut fields = ["64".to_string(), "2".to_string(), "1".to_string()];
        fields[random.below(3) as usize] = much;
        format!("new {} 0", fields.join(" ")).into()
    }),
    ("zero byte", |_, line| format!("{line}\0").into()),
    ("no text", |_, line| {
        [line.to_string().as_bytes(), &[0xff]].concat()
    }),
    ("blank", |random, _| {
        random.pick(&[" ", "\r", "\t", "0"]).into()
    }),
];

/// A good line of those that have a number, the last field being one.
fn with_number(random: &mut Random) -> String {
    let lines = ["flush 0", "step 0", "run 0", "offer 0 1 2", "new 64 2 1 0"];
    random.pick(&lines).to_string()
}

/// A line without its last field.
fn cut(line: &str) -> String {
    let (rest, _) = line.rsplit_once(' ').expect("it has a number");
    rest.to_string()
}

/// A number above its limit: by one, or such that in 32 or 64 bits a good number
/// would be left of it, or endless.
fn above(random: &mut Random, limit: u64) -> String {
    match random.below(5) {
        0 => (limit + 1).to_string(),
        1 => "4294967296".to_string(),
        2 => "18446744073709551616".to_string(),
        3 => "18446744073709551617".to_string(),
        _ => "9".repeat(99),
    }
}
