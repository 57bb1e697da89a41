//! Compares the lab program with the Rust over generated sessions.
//!
//!     LAB=PROGRAM KINDS='storage engine packets exhaustive' compare COUNT SEED FOLDER
//!
//! COUNT sessions of each kind; FOLDER takes the inputs and outputs of the moment. Exit status 0
//! without a difference, 1 with one, 2 if the lab program can't be run.

use std::collections::BTreeMap;
use std::fs::{self, File};
use std::io::{IsTerminal, stderr};
use std::path::PathBuf;
use std::process::{Child, Command, Stdio, exit};
use std::thread::sleep;
use std::time::{Duration, Instant};

use harness::make::{Kind, Plan, session};
use harness::record::{Next, OPEN_ENGINE, OPEN_STORAGE, Reader};
use harness::run::{Options, Tally, check_build, run};
use harness::show::show;
use harness::shrink::{fewer, shrink};

/// Sessions that share one run.
const CHUNK: u64 = 1000;
/// The lab program is ended after so many seconds.
const PATIENCE: u64 = 120;
/// Shrinking a session that differs stops after this time.
const SHRINK: Duration = Duration::from_secs(60);
/// Where standard error is no terminal, a line of progress after so many seconds.
const PROGRESS: u64 = 10;
/// What is compared if KINDS isn't set.
const KINDS: &str = "storage engine packets exhaustive";

/// The lab program and where its input and output go.
struct Lab {
    program: PathBuf,
    folder: PathBuf,
}

/// What one session came to.
enum Outcome {
    Same,
    /// The same up to where the Rust panics.
    Panic,
    Skip(String),
    Different,
}

/// One session of a run: its records, and the lines of both sides.
struct Compared<'a> {
    records: Vec<&'a [u8]>,
    ours: Vec<String>,
    theirs: Vec<String>,
    outcome: Outcome,
}

/// Counts over all sessions of a kind.
#[derive(Default)]
struct Counts {
    sessions: u64,
    whole: u64,
    panics: u64,
    reasons: BTreeMap<String, u64>,
    skips: BTreeMap<String, u64>,
    lines: u64,
    words: BTreeMap<String, u64>,
    /// The parts of a kind that has some, in their order.
    parts: Vec<(String, u64)>,
}

fn main() {
    let arguments: Vec<String> = std::env::args().skip(1).collect();
    let numbers = match arguments.as_slice() {
        [count, seed, folder] => count
            .parse::<u64>()
            .ok()
            .zip(seed.parse::<u64>().ok())
            .zip(Some(folder)),
        _ => None,
    };
    let Some(((count, seed), folder)) = numbers else {
        eprintln!("usage: LAB=PROGRAM KINDS='{KINDS}' compare COUNT SEED FOLDER");
        exit(2);
    };
    let variable = |name: &str, default: &str| std::env::var(name).unwrap_or(default.to_string());
    let kinds = variable("KINDS", KINDS);
    let lab = Lab {
        program: variable("LAB", "crates/lab/out/lab").into(),
        folder: folder.into(),
    };
    if !lab.program.is_file() {
        eprintln!("compare: no lab program at {}", lab.program.display());
        exit(2);
    }
    fs::create_dir_all(&lab.folder).expect("the folder for inputs and outputs");
    check_build();
    println!("seed {seed}");
    for name in kinds.split_whitespace() {
        let Some(plan) = Plan::parse(name) else {
            eprintln!("compare: there is no kind {name}");
            exit(2);
        };
        if !compare(&lab, name, plan, count, seed) {
            exit(1);
        }
    }
    println!("no difference");
}

/// All sessions of a kind. False after a difference.
fn compare(lab: &Lab, name: &str, plan: Plan, count: u64, seed: u64) -> bool {
    // A session of this kind ends the run, and starting the program takes its time.
    let (count, chunk) = match plan.kind {
        Kind::Shapes => (count.min(300), 1),
        _ => (plan.count(count), CHUNK),
    };
    let mut counts = Counts::default();
    let mut progress = Progress::new(name, count);
    let mut number = 0;
    while number < count {
        let end = (number + chunk).min(count);
        let sessions: Vec<Vec<u8>> = (number..end).map(|n| session(seed, n, plan)).collect();
        let input = sessions.concat();
        let (compared, tally) = lab.compare(&input);
        if chunk > 1 && compared.len() != sessions.len() {
            println!("{name}: a malformed record ended the run before session {end}");
            return false;
        }
        let differ: Vec<usize> = (0..compared.len())
            .filter(|&i| matches!(compared[i].outcome, Outcome::Different))
            .collect();
        if let Some(&first) = differ.first() {
            progress.end();
            println!(
                "{name}: {} of the sessions {number} to {} differ",
                differ.len(),
                end - 1
            );
            let smallest = smallest(lab, &compared, &differ);
            let which = number + smallest.unwrap_or(first) as u64;
            let part = plan.part(which).map(|part| format!(" ({part})"));
            println!("session {which}{}", part.unwrap_or_default());
            explain(lab, &compared, smallest, first);
            println!("seed {seed}");
            return false;
        }
        for (session, number) in compared.iter().zip(number..) {
            counts.add(session, plan.part(number));
        }
        for (why, count) in tally.panics {
            *counts.reasons.entry(why).or_default() += count;
        }
        number = end;
        progress.at(number);
    }
    progress.end();
    counts.print(name, progress.start.elapsed().as_secs_f64());
    true
}

/// How far a kind is, on standard error: one line that is written over, or a line now and then.
struct Progress<'a> {
    name: &'a str,
    count: u64,
    start: Instant,
    last: Instant,
    terminal: bool,
}

impl<'a> Progress<'a> {
    fn new(name: &'a str, count: u64) -> Self {
        let now = Instant::now();
        Self {
            name,
            count,
            start: now,
            last: now,
            terminal: stderr().is_terminal(),
        }
    }

    fn at(&mut self, number: u64) {
        let (name, count) = (self.name, self.count);
        let seconds = self.start.elapsed().as_secs_f64();
        let line = format!("compare: {name} {number} of {count}, {seconds:.1} s");
        if self.terminal {
            eprint!("\r{line}");
        } else if self.last.elapsed().as_secs() >= PROGRESS || number == count {
            eprintln!("{line}");
            self.last = Instant::now();
        }
    }

    fn end(&self) {
        if self.terminal {
            eprintln!();
        }
    }
}

impl Counts {
    fn add(&mut self, session: &Compared<'_>, part: Option<String>) {
        self.sessions += 1;
        if let Some(part) = part {
            match self.parts.last_mut() {
                Some((last, count)) if *last == part => *count += 1,
                _ => self.parts.push((part, 1)),
            }
        }
        match &session.outcome {
            Outcome::Skip(why) => {
                *self.skips.entry(why.clone()).or_default() += 1;
                return;
            }
            Outcome::Panic => self.panics += 1,
            _ => self.whole += 1,
        }
        for line in &session.ours {
            self.lines += 1;
            let mut words = line.split(' ').skip(1);
            let mut word = words.next().unwrap_or("").to_string();
            if matches!(
                word.as_str(),
                "open" | "write" | "flush" | "erase" | "flags"
            ) {
                for more in words.by_ref() {
                    word = format!("{word} {more}");
                }
            }
            if word == "in" {
                word = sent(words.next().unwrap_or("")).to_string();
            }
            *self.words.entry(word).or_default() += 1;
        }
    }

    fn print(&self, name: &str, seconds: f64) {
        let list = |counts: &BTreeMap<String, u64>| {
            let pairs: Vec<String> = counts
                .iter()
                .map(|(word, n)| format!("{word}: {n}"))
                .collect();
            pairs.join(", ")
        };
        let skipped: u64 = self.skips.values().sum();
        println!(
            "{name}: {} sessions in {seconds:.1} s; {} compared whole, {} up to a panic of the Rust, {skipped} skipped{}",
            self.sessions,
            self.whole,
            self.panics,
            match self.skips.is_empty() {
                true => String::new(),
                false => format!(" ({})", list(&self.skips)),
            },
        );
        for (why, count) in &self.reasons {
            println!("{name}: the Rust panics at {why}: {count}");
        }
        println!("{name}: {} lines ({})", self.lines, list(&self.words));
        for (part, count) in &self.parts {
            println!("{name}: {part}: {count}");
        }
    }
}

/// What a packet that was sent is: a CSW by its status and residue, or data.
fn sent(hex: &str) -> &'static str {
    if hex.len() != 26 || !hex.starts_with("55534253") {
        return match hex.len() {
            1024 => "in: 512 bytes",
            _ => "in: fewer bytes",
        };
    }
    match (&hex[24..], &hex[16..24]) {
        ("00", "00000000") => "in: CSW, status 0",
        ("00", _) => "in: CSW, status 0 and a residue",
        (_, "00000000") => "in: CSW, status 1",
        _ => "in: CSW, status 1 and a residue",
    }
}

impl Lab {
    /// Starts the lab program on an input.
    fn start(&self, input: &[u8]) -> Child {
        let (stdin, stdout) = (self.folder.join("input"), self.folder.join("output"));
        fs::write(&stdin, input).expect("the input for the lab program");
        let output = File::create(&stdout).expect("the output of the lab program");
        Command::new(&self.program)
            .stdin(File::open(&stdin).expect("the input for the lab program"))
            .stdout(output)
            .stderr(Stdio::null())
            .spawn()
            .unwrap_or_else(|error| {
                eprintln!("compare: {}: {error}", self.program.display());
                exit(2);
            })
    }

    /// The output of the lab program. What it printed before it failed or was ended counts too.
    fn output(&self, mut child: Child) -> String {
        let start = Instant::now();
        let mut pause = 1;
        while child.try_wait().expect("the lab program").is_none() {
            if start.elapsed().as_secs() >= PATIENCE {
                eprintln!("compare: the lab program took over {PATIENCE} s and was ended");
                child.kill().expect("the lab program");
                child.wait().expect("the lab program");
                break;
            }
            sleep(Duration::from_millis(pause));
            pause = (pause * 2).min(50);
        }
        let bytes = fs::read(self.folder.join("output")).expect("the output of the lab program");
        String::from_utf8_lossy(&bytes).into_owned()
    }

    /// Runs both sides, one beside the other, and splits records and lines by openings.
    fn compare<'a>(&self, input: &'a [u8]) -> (Vec<Compared<'a>>, Tally) {
        let child = self.start(input);
        let mut ours = vec![];
        let tally = run(input, Options { figure: true }, &mut ours);
        let ours = String::from_utf8(ours).expect("lines");
        let theirs = self.output(child);

        let (records, starts) = split(input);
        let mut sessions: Vec<Compared<'a>> = starts
            .iter()
            .enumerate()
            .map(|(i, &start)| Compared {
                records: records[start..*starts.get(i + 1).unwrap_or(&records.len())].to_vec(),
                ours: vec![],
                theirs: vec![],
                outcome: Outcome::Same,
            })
            .collect();
        let mut place = |lines: &str, ours: bool| {
            let mut at = 0;
            for line in lines.lines() {
                let number = line.split(' ').next().and_then(|n| n.parse::<usize>().ok());
                // A line without a number goes where the last one went.
                if let Some(number) = number {
                    at = starts.partition_point(|&start| start <= number).max(1) - 1;
                }
                let session = &mut sessions[at];
                let to = match ours {
                    true => &mut session.ours,
                    false => &mut session.theirs,
                };
                to.push(line.to_string());
            }
        };
        if !starts.is_empty() {
            place(&ours, true);
            place(&theirs, false);
        }
        for session in &mut sessions {
            session.outcome = outcome(&session.ours, &session.theirs);
        }
        (sessions, tally)
    }

    fn differs(&self, input: &[u8]) -> bool {
        let (sessions, _) = self.compare(input);
        sessions
            .iter()
            .any(|session| matches!(session.outcome, Outcome::Different))
    }
}

/// The records of an input as bytes, a malformed rest as one, and where each opening stands. The
/// records before the first opening go with it.
fn split(input: &[u8]) -> (Vec<&[u8]>, Vec<usize>) {
    let mut reader = Reader::new(input);
    let (mut records, mut starts) = (vec![], vec![]);
    let mut place = 0;
    while let Next::Record(record) = reader.next() {
        if matches!(record.kind, OPEN_STORAGE | OPEN_ENGINE) || starts.is_empty() {
            starts.push(records.len());
        }
        let end = place + 6 + record.body.len();
        records.push(&input[place..end]);
        place = end;
    }
    if place < input.len() {
        if starts.is_empty() {
            starts.push(0);
        }
        records.push(&input[place..]);
    }
    (records, starts)
}

/// Compares the lines of one session.
fn outcome(ours: &[String], theirs: &[String]) -> Outcome {
    let said = |line: &String, word: &str| line.split(' ').nth(1) == Some(word);
    if let Some(line) = ours.iter().find(|line| said(line, "skip")) {
        let why = line.split(' ').nth(2).unwrap_or("");
        return Outcome::Skip(why.to_string());
    }
    if let Some(end) = ours.iter().position(|line| said(line, "panic")) {
        return match theirs.get(..end) {
            Some(theirs) if theirs == &ours[..end] => Outcome::Panic,
            _ => Outcome::Different,
        };
    }
    match ours == theirs {
        true => Outcome::Same,
        false => Outcome::Different,
    }
}

/// The smallest session that differs by itself: after a failure of the lab program all that stand
/// behind it differ too, but for no fault of theirs.
fn smallest(lab: &Lab, compared: &[Compared<'_>], differ: &[usize]) -> Option<usize> {
    const MOST: usize = 100;
    let mut by_size = differ.to_vec();
    by_size.sort_by_key(|&i| compared[i].records.iter().map(|r| r.len()).sum::<usize>());
    let mut tried = by_size
        .into_iter()
        .take(MOST)
        .chain(differ.first().copied());
    tried.find(|&i| lab.differs(&compared[i].records.concat()))
}

/// Shrinks a session that differs and prints it with both outputs. Where none differs by itself it
/// is the first with those before it that it needs.
fn explain(lab: &Lab, compared: &[Compared<'_>], smallest: Option<usize>, first: usize) {
    let holds = |records: &[Vec<u8>]| lab.differs(&records.concat());
    let records: Vec<Vec<u8>> = match smallest {
        Some(which) => compared[which].records.iter().map(|r| r.to_vec()).collect(),
        None => {
            println!("alone it does not differ; shown with what it needs before it");
            let sessions = compared[..=first].iter().map(|s| s.records.concat());
            let input = fewer(sessions.collect(), 0, &holds).concat();
            split(&input).0.iter().map(|r| r.to_vec()).collect()
        }
    };
    let before = (records.len(), records.concat().len());
    let records = shrink(records, 1, SHRINK, &holds);
    let input = records.concat();
    println!(
        "{} records of {} bytes, shrunk to {} of {}:",
        before.0,
        before.1,
        records.len(),
        input.len()
    );
    for (number, record) in records.iter().enumerate() {
        println!("  {number}: {}", show(record));
    }
    for session in lab.compare(&input).0 {
        println!("the Rust:");
        print_lines(&session.ours);
        println!("the lab program:");
        print_lines(&session.theirs);
    }
    let file = lab.folder.join("difference");
    fs::write(&file, &input).expect("the input that differs");
    println!("input kept as {}", file.display());
}

fn print_lines(lines: &[String]) {
    for line in lines {
        println!("  {line}");
    }
}
