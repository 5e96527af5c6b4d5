//! Compares this program with the judge's archive on many generated files.

use second::archive;
use second::file::{File, Refusal, MAX_EVENTS};
use second::generate::{Case, Generator, Promise};
use second::judge::{self, Verdict};
use second::rng::Rng;
use std::collections::BTreeMap;
use std::process::ExitCode;
use std::time::{Duration, Instant};

const USAGE: &str = "compare [--seed N] [--seconds S] [--files N] [--only CASE]";
const DEFAULT_FILES: usize = 20_000;
/// After so many disagreements the rest is not worth the time.
const ENOUGH: usize = 10;
/// Bytes behind each lent buffer that nobody may touch.
const GUARD: usize = 16;

fn main() -> ExitCode {
    let Some(options) = Options::read(std::env::args().skip(1)) else {
        eprintln!("{USAGE}");
        return ExitCode::from(2);
    };
    let generator = Generator::default();
    let mut tally = Tally::new(&generator);
    let start = Instant::now();
    match options.only {
        Some(number) => run(&generator, options.seed, number, &mut tally),
        None => {
            let mut number = 0;
            while number < options.files
                && start.elapsed() < options.time
                && tally.disagreements < ENOUGH
            {
                run(&generator, options.seed, number, &mut tally);
                number += 1;
            }
        }
    }
    tally.print(options.seed, start.elapsed());
    let complete = options.only.is_some() || tally.is_complete();
    if tally.disagreements == 0 && complete {
        ExitCode::SUCCESS
    } else {
        ExitCode::FAILURE
    }
}

struct Options {
    seed: u64,
    files: usize,
    time: Duration,
    only: Option<usize>,
}

impl Options {
    fn read(mut arguments: impl Iterator<Item = String>) -> Option<Options> {
        let (mut seed, mut files, mut seconds, mut only) = (1, None, None, None);
        while let Some(name) = arguments.next() {
            let value = arguments.next()?;
            match &name[..] {
                "--seed" => seed = value.parse().ok()?,
                "--files" => files = Some(value.parse().ok()?),
                "--seconds" => seconds = Some(value.parse().ok()?),
                "--only" => only = Some(value.parse().ok()?),
                _ => return None,
            }
        }
        let default_files = match seconds {
            Some(_) => usize::MAX,
            None => DEFAULT_FILES,
        };
        Some(Options {
            seed,
            files: files.unwrap_or(default_files),
            time: seconds.map_or(Duration::MAX, Duration::from_secs),
            only,
        })
    }
}

/// What has come up so far.
struct Tally {
    files: usize,
    questions: usize,
    disagreements: usize,
    rules: [usize; 15],
    refusals: [usize; 10],
    near_misses: BTreeMap<String, usize>,
    others: BTreeMap<String, usize>,
}

impl Tally {
    fn new(generator: &Generator) -> Tally {
        Tally {
            files: 0,
            questions: 0,
            disagreements: 0,
            rules: [0; 15],
            refusals: [0; 10],
            near_misses: generator.near_misses().map(|name| (name.into(), 0)).collect(),
            others: BTreeMap::new(),
        }
    }

    fn is_complete(&self) -> bool {
        let counts = self.rules[1..].iter().chain(&self.refusals[1..]);
        counts.chain(self.near_misses.values()).all(|&n| n > 0)
    }

    fn print(&self, seed: u64, time: Duration) {
        for (name, count) in &self.near_misses {
            println!("near miss {name}: {count}");
        }
        for (name, count) in &self.others {
            println!("{name}: {count}");
        }
        for (rule, count) in self.rules.iter().enumerate().skip(1) {
            println!("rule {rule}: {count}");
        }
        for (cause, count) in self.refusals.iter().enumerate().skip(1) {
            println!("refusal {cause}: {count}");
        }
        if !self.is_complete() {
            println!("some of these never occurred");
        }
        let missed = self.near_misses.values().sum::<usize>();
        println!(
            "{} files, {} of them near misses of {} names, {} questions, seed {seed}, {:.1} s, {:.0} files per second",
            self.files,
            missed,
            self.near_misses.len(),
            self.questions,
            time.as_secs_f64(),
            self.files as f64 / time.as_secs_f64(),
        );
        println!("{} disagreements", self.disagreements);
    }
}

/// Judges one case twice and counts it.
fn run(generator: &Generator, seed: u64, number: usize, tally: &mut Tally) {
    let case = generator.case(seed, number);
    let mut comparison = Comparison {
        file: &case.file,
        rng: Rng::new(!seed, number as u64),
        tally,
        differences: Vec::new(),
    };
    comparison.compare(case.promise);
    let differences = comparison.differences;
    tally.files += 1;
    if differences.is_empty() {
        let counts = match case.promise {
            Promise::Missed(_) => &mut tally.near_misses,
            _ => &mut tally.others,
        };
        *counts.entry(case.name).or_default() += 1;
    } else {
        tally.disagreements += 1;
        report(&case, seed, number, &differences);
    }
}

fn report(case: &Case, seed: u64, number: usize, differences: &[String]) {
    println!("DISAGREEMENT: seed {seed}, case {number}, {}", case.name);
    for difference in differences {
        println!("  {difference}");
    }
    let path = std::env::temp_dir().join(format!("compare-{seed}-{number}.trace"));
    match std::fs::write(&path, &case.file) {
        Ok(()) => println!("  the file is {}", path.display()),
        Err(error) => println!("  the file cannot be written: {error}"),
    }
}

/// All questions about one file, put to both programs.
struct Comparison<'a> {
    file: &'a [u8],
    rng: Rng,
    tally: &'a mut Tally,
    differences: Vec<String>,
}

impl Comparison<'_> {
    fn compare(&mut self, promise: Promise) {
        match File::read(self.file) {
            Ok(trace) => {
                let (rows, events) = (trace.messages.len(), trace.events.len());
                self.verdicts(&[events, events + 7, MAX_EVENTS]);
                self.verdicts(&too_short_for(events));
                let middle = self.rng.below(events + 1);
                for n in [0, middle, events, events + 1, usize::MAX] {
                    self.knowledge(n, rows);
                }
                let another = self.rng.below(events + 1);
                self.knowledge(another, rows + 9);
                for length in too_short_for(rows) {
                    self.knowledge(middle, length);
                    self.knowledge(events + 1, length);
                }
            }
            Err(_) => {
                self.verdicts(&[0, 5, MAX_EVENTS]);
                self.knowledge(0, 0);
                self.knowledge(1, 1024);
            }
        }
        self.fault();
        self.check(promise);
    }

    fn verdicts(&mut self, lengths: &[usize]) {
        for &length in lengths {
            let [mut ours, mut theirs] = self.buffers(length);
            let verdict = judge::verdict(self.file, &mut ours[..length]);
            let reply = archive::verdict(self.file, &mut theirs[..length]);
            let question = format!("verdict with {length} bytes");
            self.differ(&question, archive::verdict_word(verdict), reply, &ours, &theirs);
            if let Verdict::Refused { cause: 8, .. } = verdict {
                self.tally.refusals[8] += 1;
            }
        }
    }

    fn knowledge(&mut self, n: usize, length: usize) {
        let [mut ours, mut theirs] = self.buffers(length);
        let outcome = judge::knowledge(self.file, n, &mut ours[..length]);
        let reply = archive::knowledge(self.file, n, &mut theirs[..length]);
        let question = format!("knowledge after {n} events with {length} bytes");
        self.differ(&question, archive::knowledge_word(outcome), reply, &ours, &theirs);
        match outcome {
            Err(Refusal { cause, .. }) if cause >= 8 => {
                self.tally.refusals[cause as usize] += 1;
            }
            _ => {}
        }
    }

    fn fault(&mut self) {
        let part = archive::fault_word(judge::fault(self.file));
        let reply = archive::fault(self.file);
        self.differ("fault", part, reply, &[], &[]);
    }

    /// Two equal buffers with room for a guard, filled so that every write shows.
    fn buffers(&mut self, length: usize) -> [Vec<u8>; 2] {
        let filling = self.rng.pick(&[0xa5, 0x5a, 0xff]);
        [(); 2].map(|_| vec![filling; length + GUARD])
    }

    fn differ(&mut self, question: &str, our: u32, their: u32, ours: &[u8], theirs: &[u8]) {
        self.tally.questions += 1;
        if our != their {
            self.differences.push(format!(
                "{question}: this program replies {our:#010x}, the archive {their:#010x}"
            ));
        }
        if let Some(at) = (0..ours.len()).find(|&at| ours[at] != theirs[at]) {
            self.differences.push(format!(
                "{question}: byte {at} of the lent buffer: this program {}, the archive {}",
                ours[at], theirs[at]
            ));
        }
    }

    /// Counts the file's rules or its refusal, and checks that it is what its generator says.
    fn check(&mut self, promise: Promise) {
        let mut rules = [0; MAX_EVENTS];
        let verdict = judge::verdict(self.file, &mut rules);
        match verdict {
            Verdict::Refused { cause, .. } => self.tally.refusals[cause as usize] += 1,
            Verdict::Illegal(n) | Verdict::Accepted(n) => {
                for &rule in &rules[..n as usize] {
                    self.tally.rules[rule as usize] += 1;
                }
            }
        }
        let kept = match promise {
            Promise::Accepted => matches!(verdict, Verdict::Accepted(_)),
            Promise::Missed(place) => verdict == Verdict::Illegal(place as u32),
            Promise::Nothing => true,
        };
        if !kept {
            self.differences
                .push(format!("the generator promised {promise:?}, this program says {verdict:?}"));
        }
    }
}

/// Lengths of buffers that are too short for so many items.
fn too_short_for(items: usize) -> Vec<usize> {
    match items {
        0 => vec![],
        1 => vec![0],
        _ => vec![items - 1, 0],
    }
}
