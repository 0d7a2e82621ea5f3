//! Random scripts through the proved reader and the reference, compared byte for byte.
//!
//!     differential SCRIPTS SEED COMMAND..
//!
//! runs COMMAND (the proved reader) on SCRIPTS scripts made from SEED: in batches, as files that it is given by name, and one of
//! each batch on standard input. The first script on which the two differ is cut down to a few lines and printed with both
//! outputs. At the end stands how often each answer was given, so that one can see what the scripts reach.

use std::io::Write as _;
use std::path::{Path, PathBuf};
use std::process::{Command, ExitCode, Stdio};

const BATCH: u64 = 50;

fn main() -> ExitCode {
    let mut words = std::env::args().skip(1);
    let scripts: u64 = words.next().and_then(|w| w.parse().ok()).expect("SCRIPTS is a number");
    let seed: u64 = words.next().and_then(|w| w.parse().ok()).expect("SEED is a number");
    let reader: Vec<String> = words.collect();
    assert!(!reader.is_empty(), "COMMAND is missing");
    let folder = Folder::new();
    let mut answers = [0u64; 23];
    for first in (0..scripts).step_by(BATCH as usize) {
        let batch: Vec<Vec<u8>> = (first..scripts.min(first + BATCH)).map(|number| Maker::new(seed, number).script()).collect();
        let expected: Vec<String> = batch.iter().map(|script| reference::script::run(script)).collect();
        count(&expected, &mut answers);
        let one = (first / BATCH) as usize % batch.len();
        if differs(&reader, &batch[one]) || proved_files(&reader, &folder.0, &batch) != expected.concat().into_bytes() {
            report_first(&reader, batch, first);
            return ExitCode::FAILURE;
        }
    }
    println!("differential: {scripts} scripts of seed {seed}, no difference; answers {}", counted(&answers));
    ExitCode::SUCCESS
}

/// A folder for the scripts of a batch, removed at the end.
struct Folder(PathBuf);

impl Folder {
    fn new() -> Folder {
        let folder = std::env::temp_dir().join(format!("differential-{}", std::process::id()));
        std::fs::create_dir(&folder).expect("a folder for scripts can be made");
        Folder(folder)
    }
}

impl Drop for Folder {
    fn drop(&mut self) {
        let _ = std::fs::remove_dir_all(&self.0);
    }
}

/// Counts the lines of each answer; the lines of a listing begin with a letter.
fn count(outputs: &[String], answers: &mut [u64; 23]) {
    for line in outputs.iter().flat_map(|output| output.lines()) {
        let number = line.split(' ').next().and_then(|word| word.parse::<usize>().ok());
        if let Some(number) = number {
            answers[number] += 1;
        }
    }
}

fn counted(answers: &[u64; 23]) -> String {
    let some = answers.iter().enumerate().filter(|(_, times)| **times > 0);
    some.map(|(number, times)| format!("{number}:{times}")).collect::<Vec<_>>().join(" ")
}

/// What the proved reader prints for scripts in files.
fn proved_files(reader: &[String], folder: &Path, batch: &[Vec<u8>]) -> Vec<u8> {
    let names: Vec<PathBuf> = (0..batch.len()).map(|n| folder.join(n.to_string())).collect();
    for (name, script) in names.iter().zip(batch) {
        std::fs::write(name, script).expect("a script is written");
    }
    Command::new(&reader[0]).args(&reader[1..]).args(names).output().expect("the reader runs").stdout
}

/// The first script of a batch that differs, cut down; or, if each by itself does not, the batch.
fn report_first(reader: &[String], batch: Vec<Vec<u8>>, first: u64) {
    for (script, number) in batch.into_iter().zip(first..) {
        if differs(reader, &script) {
            report(reader, cut_down(reader, script), number);
            return;
        }
    }
    println!("differential: the scripts from {first} on differ as files, and none of them on standard input");
}

fn differs(reader: &[String], script: &[u8]) -> bool {
    proved(reader, script) != reference::script::run(script).into_bytes()
}

/// What the proved reader prints for a script on standard input.
fn proved(reader: &[String], script: &[u8]) -> Vec<u8> {
    let mut child =
        Command::new(&reader[0]).args(&reader[1..]).stdin(Stdio::piped()).stdout(Stdio::piped()).spawn().expect("the reader starts");
    let mut input = child.stdin.take().expect("its standard input is a pipe");
    let text = script.to_vec();
    let writer = std::thread::spawn(move || {
        // a reader that ends early closes the pipe; its output shows that
        let _ = input.write_all(&text);
    });
    let output = child.wait_with_output().expect("the reader ends");
    writer.join().expect("the script is written");
    output.stdout
}

/// Lines are dropped, in ever smaller runs, while the two still differ.
fn cut_down(reader: &[String], script: Vec<u8>) -> Vec<u8> {
    let mut lines: Vec<Vec<u8>> = script.split_inclusive(|&b| b == b'\n').map(<[u8]>::to_vec).collect();
    let mut run = lines.len();
    while run > 0 {
        let mut from = 0;
        while from < lines.len() {
            let mut fewer = lines.clone();
            fewer.drain(from..(from + run).min(lines.len()));
            if differs(reader, &fewer.concat()) {
                lines = fewer;
            } else {
                from += run;
            }
        }
        run /= 2;
    }
    lines.concat()
}

fn report(reader: &[String], script: Vec<u8>, number: u64) {
    println!("differential: script {number} differs; cut down:");
    println!("{}", String::from_utf8_lossy(&script));
    println!("the proved reader:");
    println!("{}", String::from_utf8_lossy(&proved(reader, &script)));
    println!("the reference:");
    println!("{}", reference::script::run(&script));
}

/// Makes one script. Worlds are small, so that pools run short, rules come back and sets are found again.
struct Maker {
    state: u64,
    /// Terminals and non-terminals of this world.
    terminals: u64,
    nonterminals: u64,
    rules: Vec<String>,
    /// Few scripts have many rules and sets, so that their numbers have three digits.
    large: bool,
}

impl Maker {
    fn new(seed: u64, number: u64) -> Maker {
        let mut maker = Maker {
            state: seed.wrapping_mul(0x9e37_79b9_7f4a_7c15) ^ number,
            terminals: 1,
            nonterminals: 1,
            rules: Vec::new(),
            large: false,
        };
        maker.large = maker.chance(3);
        maker.terminals = 1 + if maker.large { maker.below(63) } else { maker.below(3) };
        maker.nonterminals = 1 + if maker.large { maker.below(20) } else { maker.below(4) };
        maker
    }

    /// splitmix64
    fn next(&mut self) -> u64 {
        self.state = self.state.wrapping_add(0x9e37_79b9_7f4a_7c15);
        let mut z = self.state;
        z = (z ^ (z >> 30)).wrapping_mul(0xbf58_476d_1ce4_e5b9);
        z = (z ^ (z >> 27)).wrapping_mul(0x94d0_49bb_1331_11eb);
        z ^ (z >> 31)
    }

    fn below(&mut self, n: u64) -> u64 {
        self.next() % n
    }

    fn chance(&mut self, in_hundred: u64) -> bool {
        self.below(100) < in_hundred
    }

    fn script(&mut self) -> Vec<u8> {
        let mut script = Vec::new();
        let commands = 5 + self.below(40);
        if self.chance(97) {
            self.line(&mut script, Self::new_table);
        }
        let adds = if self.large { 80 + self.below(80) } else { 2 + self.below(6) };
        for _ in 0..adds {
            self.line(&mut script, Self::add);
        }
        for _ in 0..commands {
            let command = match self.below(100) {
                0..=39 => Self::parse,
                40..=59 => Self::add,
                60..=74 => Self::delete,
                75..=82 => Self::list,
                83..=86 => Self::collect,
                87..=90 => Self::restart,
                91..=92 => Self::new_table,
                93 => Self::long,
                _ => Self::junk,
            };
            self.line(&mut script, command);
        }
        if self.chance(10) {
            script.pop();
        }
        script
    }

    fn line(&mut self, script: &mut Vec<u8>, make: fn(&mut Maker) -> Vec<u8>) {
        script.extend(make(self));
        script.push(b'\n');
    }

    fn new_table(&mut self) -> Vec<u8> {
        if self.chance(10) {
            return b"N".to_vec();
        }
        if self.large && self.chance(90) {
            return b"N 128 128 1024".to_vec();
        }
        let sets = if self.chance(5) { self.below(300) } else { 1 + self.below(16) };
        let rules = if self.chance(5) { self.below(300) } else { 1 + self.below(8) };
        let links = if self.chance(50) { self.below(12) } else { self.below(1100) };
        format!("N {sets} {rules} {links}").into_bytes()
    }

    fn right_symbol(&mut self) -> u64 {
        match self.below(100) {
            0..=44 => 1 + self.below(self.terminals),
            45..=98 => 65 + self.below(self.nonterminals),
            _ => self.below(140),
        }
    }

    fn rule(&mut self) -> String {
        let left = match self.below(100) {
            0..=29 => 64,
            30..=98 => 65 + self.below(self.nonterminals),
            _ => self.below(140),
        };
        let length = match self.below(100) {
            0..=24 => 0,
            25..=54 => 1,
            55..=79 => 2,
            80..=97 => 3 + self.below(2),
            _ => 5 + self.below(5),
        };
        let mut rule = left.to_string();
        for _ in 0..length {
            rule.push_str(&format!(" {}", self.right_symbol()));
        }
        rule
    }

    fn add(&mut self) -> Vec<u8> {
        let rule = if !self.rules.is_empty() && self.chance(30) { self.known_rule() } else { self.rule() };
        self.rules.push(rule.clone());
        format!("A {rule}").into_bytes()
    }

    fn known_rule(&mut self) -> String {
        let n = self.below(self.rules.len() as u64) as usize;
        self.rules[n].clone()
    }

    fn delete(&mut self) -> Vec<u8> {
        let rule = if !self.rules.is_empty() && self.chance(90) { self.known_rule() } else { self.rule() };
        format!("D {rule}").into_bytes()
    }

    fn parse(&mut self) -> Vec<u8> {
        if self.chance(50) {
            return self.derived();
        }
        let length = match self.below(100) {
            0..=89 => self.below(7),
            90..=97 => self.below(40),
            _ => 250 + self.below(10),
        };
        let mut line = b"P".to_vec();
        for _ in 0..length {
            let token = if self.chance(99) { 1 + self.below(self.terminals) } else { self.below(70) };
            line.extend(format!(" {token}").into_bytes());
        }
        line
    }

    /// A line that START derives by rules that were added, withdrawn ones among them, if a few steps lead to one.
    fn derived(&mut self) -> Vec<u8> {
        let mut form = vec![64];
        for _ in 0..30 {
            let Some(at) = form.iter().position(|&x| x >= 64) else { break };
            let right = self.right_of(form[at]);
            form.splice(at..at + 1, right);
        }
        let tokens = form.iter().filter(|&&x| x < 64).take(255);
        let line: String = tokens.map(|x| format!(" {x}")).collect();
        format!("P{line}").into_bytes()
    }

    /// A right side that was added for a symbol, empty if there is none.
    fn right_of(&mut self, left: u64) -> Vec<u64> {
        let numbers = |rule: &String| rule.split(' ').map(|word| word.parse().expect("a rule is numbers")).collect::<Vec<u64>>();
        let rights: Vec<Vec<u64>> = self.rules.iter().map(numbers).filter(|rule| rule[0] == left).map(|rule| rule[1..].to_vec()).collect();
        if rights.is_empty() {
            return Vec::new();
        }
        rights[self.below(rights.len() as u64) as usize].clone()
    }

    fn list(&mut self) -> Vec<u8> {
        b"L".to_vec()
    }

    fn collect(&mut self) -> Vec<u8> {
        b"G".to_vec()
    }

    fn restart(&mut self) -> Vec<u8> {
        b"R".to_vec()
    }

    /// A line about as long as a good one can be, or longer, or longer than what is read at once; good but for its length.
    fn long(&mut self) -> Vec<u8> {
        let length = match self.below(100) {
            0..=59 => 1270 + self.below(30),
            60..=89 => self.below(5000),
            _ => 60_000 + self.below(20_000),
        };
        let number = ["0", "1", "63", "255", "9999"][self.below(5) as usize];
        let mut line = if self.chance(50) { b"P".to_vec() } else { b"A 65".to_vec() };
        while line.len() < length as usize {
            line.extend(format!(" {number}").into_bytes());
        }
        line.truncate(length as usize);
        line
    }

    /// A good line with a byte changed, dropped or put in; or bytes out of the air.
    fn junk(&mut self) -> Vec<u8> {
        const BYTES: &[u8] = b"NADPGRLX a0123456789 -.\t\r\0\xff";
        let mut line = if self.chance(80) { self.add() } else { Vec::new() };
        for _ in 0..1 + self.below(3) {
            let byte = BYTES[self.below(BYTES.len() as u64) as usize];
            let at = self.below(line.len() as u64 + 1) as usize;
            match self.below(3) {
                0 if at < line.len() => line[at] = byte,
                1 if at < line.len() => drop(line.remove(at)),
                _ => line.insert(at, byte),
            }
        }
        line
    }
}
