//! Makes a script on which the programs differ short, so that it can be read.

use oracle::bridge::Checked;
use oracle::replay;

use crate::program::{Program, Ran};

/// How often the program is run for this.
const RUNS: u32 = 1_000;

/// A run of each producer.
const RUN_OF: [&[u8]; 8] = [
    b"run 0\n", b"run 1\n", b"run 2\n", b"run 3\n", b"run 4\n", b"run 5\n", b"run 6\n", b"run 7\n",
];

/// The words for a script on which the programs differ, as short as it was found.
pub fn mismatch(program: &Program, script: &[u8]) -> Result<String, String> {
    let mut shrinker = Shrinker {
        program,
        lines: script.split_inclusive(|&byte| byte == b'\n').collect(),
        runs: 0,
    };
    shrinker.cut_behind()?;
    while shrinker.drop_lines()? | shrinker.run_steps()? {}
    let script = shrinker.lines.concat();
    let first = program.run(&script)?;
    Ok(words(&script, &first))
}

fn words(script: &[u8], first: &Ran) -> String {
    let own = replay::replay(script);
    let (script, printed) = (script.escape_ascii(), first.output.escape_ascii());
    let [script, printed] = [script, printed].map(|text| text.to_string().replace("\\n", "\n"));
    let status = first.status;
    format!(
        "the programs differ on the script\n{script}\n\
         the first implementation prints\n{printed}\n\
         and ends with {status}; the oracle prints\n{own}"
    )
}

/// The lines left of a script; the programs differ on them.
struct Shrinker<'a> {
    program: &'a Program,
    lines: Vec<&'a [u8]>,
    runs: u32,
}

impl<'a> Shrinker<'a> {
    /// Drops what comes after the first line that is answered differently.
    fn cut_behind(&mut self) -> Checked {
        let script = self.lines.concat();
        let own = replay::replay(&script);
        let first = self.program.run(&script)?.output;
        let own = own.as_bytes().split(|&byte| byte == b'\n');
        let first = first.split(|&byte| byte == b'\n');
        let same = own.zip(first).take_while(|(x, y)| x == y).count();
        let kept = self.lines.len().min(same + 1);
        let lines = self.lines[..kept].to_vec();
        self.keep_if_differing(lines)?;
        Ok(())
    }

    /// Drops stretches of lines, ever shorter ones, while the programs differ.
    /// Tells whether any was dropped.
    fn drop_lines(&mut self) -> Result<bool, String> {
        let length = self.lines.len();
        let mut stretch = length / 2;
        while stretch > 0 {
            let mut at = 0;
            while at + stretch <= self.lines.len() && self.runs < RUNS {
                let (before, rest) = self.lines.split_at(at);
                let lines = [before, &rest[stretch..]].concat();
                if !self.keep_if_differing(lines)? {
                    at += stretch;
                }
            }
            stretch /= 2;
        }
        Ok(self.lines.len() < length)
    }

    /// Makes runs of steps, so that the steps behind them can be dropped. Tells
    /// whether any was made.
    fn run_steps(&mut self) -> Result<bool, String> {
        let mut made = false;
        for at in 0..self.lines.len() {
            let run = match self.lines[at] {
                [b's', b't', b'e', b'p', p @ ..] => RUN_OF.iter().find(|run| run.ends_with(p)),
                _ => None,
            };
            if let Some(run) = run.filter(|_| self.runs < RUNS) {
                let mut lines = self.lines.clone();
                lines[at] = run;
                made |= self.keep_if_differing(lines)?;
            }
        }
        Ok(made)
    }

    fn keep_if_differing(&mut self, lines: Vec<&'a [u8]>) -> Result<bool, String> {
        self.runs += 1;
        let script = lines.concat();
        let first = self.program.run(&script)?;
        let differing = !first.agrees(&replay::replay(&script));
        if differing {
            self.lines = lines;
        }
        Ok(differing)
    }
}
