//! Holds what a command prints to this program's text, on many generated files and longer inputs.

use second::file::MAX_FILE;
use second::generate::{full_size, Generator};
use second::judge;
use second::rng::Rng;
use std::io::{self, ErrorKind, Write};
use std::process::{ChildStdin, Command, ExitCode, Output, Stdio};
use std::thread;
use std::time::{Duration, Instant};

const USAGE: &str = "texts [--seed N] [--files N] [--only CASE] -- COMMAND [WORD]..";
const DEFAULT_FILES: usize = 3_000;
/// After so many disagreements a thread does not go on.
const ENOUGH: usize = 5;
/// What the small program reads at most.
const READ: usize = MAX_FILE + 1;
/// About the length of the longest input.
const LONGEST: usize = 40_000;
/// Between the two pieces of an input.
const PAUSE: Duration = Duration::from_millis(50);

fn main() -> ExitCode {
    let Some(options) = Options::read(std::env::args().skip(1)) else {
        eprintln!("{USAGE}");
        return ExitCode::from(2);
    };
    let start = Instant::now();
    let threads = thread::available_parallelism().map_or(1, usize::from);
    let mut tally = Tally::default();
    thread::scope(|scope| {
        let options = &options;
        let start = |first| scope.spawn(move || run(options, first, threads));
        let runs: Vec<_> = (0..threads).map(start).collect();
        for run in runs {
            tally.add(run.join().expect("the thread ends"));
        }
    });
    tally.print(options.seed, start.elapsed().as_secs_f64());
    let complete = options.only.is_some() || tally.is_complete();
    if tally.disagreements == 0 && complete {
        ExitCode::SUCCESS
    } else {
        ExitCode::FAILURE
    }
}

struct Options {
    seed: u64,
    files: usize,
    only: Option<usize>,
    command: Vec<String>,
}

impl Options {
    fn read(mut arguments: impl Iterator<Item = String>) -> Option<Options> {
        let (mut seed, mut files, mut only) = (1, DEFAULT_FILES, None);
        loop {
            match &arguments.next()?[..] {
                "--seed" => seed = arguments.next()?.parse().ok()?,
                "--files" => files = arguments.next()?.parse().ok()?,
                "--only" => only = Some(arguments.next()?.parse().ok()?),
                "--" => break,
                _ => return None,
            }
        }
        let command: Vec<String> = arguments.collect();
        (!command.is_empty()).then_some(Options { seed, files, only, command })
    }
}

/// What has come up so far.
#[derive(Default)]
struct Tally {
    /// Texts: accepted, illegal, refused by causes 1 to 7; the small program gives no other. Then
    /// inputs: as long as the longest file, a byte longer, two bytes, more.
    counts: [usize; 13],
    disagreements: usize,
}

impl Tally {
    fn count(&mut self, input: &[u8], text: &str) {
        let last = text.lines().last().expect("a line for the verdict");
        let place = match last.split(' ').collect::<Vec<_>>()[..] {
            ["accepted", _] => 0,
            ["illegal", _] => 1,
            ["refused", cause, _] => 1 + cause.parse::<usize>().expect("a number"),
            _ => panic!("no verdict: {last}"),
        };
        self.counts[place] += 1;
        if let Some(more) = input.len().checked_sub(MAX_FILE) {
            self.counts[9 + more.min(3)] += 1;
        }
    }

    fn add(&mut self, other: Tally) {
        for (count, more) in self.counts.iter_mut().zip(other.counts) {
            *count += more;
        }
        self.disagreements += other.disagreements;
    }

    fn is_complete(&self) -> bool {
        self.counts.iter().all(|&count| count > 0)
    }

    fn print(&self, seed: u64, seconds: f64) {
        let [accepted, illegal, refused @ .., longest, read, one_more, more] = self.counts;
        let texts = accepted + illegal + refused.iter().sum::<usize>();
        println!(
            "{texts} texts, seed {seed}, {seconds:.1} s: accepted {accepted}, illegal {illegal},"
        );
        println!("refused by causes 1 to 7 {refused:?}; inputs of {MAX_FILE} bytes {longest},");
        println!("{READ} bytes {read}, {} bytes {one_more}, more {more}", READ + 1);
        if !self.is_complete() {
            println!("some of these never occurred");
        }
        println!("{} disagreements", self.disagreements);
    }
}

/// Every `step`th case from the first one on.
fn run(options: &Options, first: usize, step: usize) -> Tally {
    let inputs = Inputs::new(options.seed);
    let mut tally = Tally::default();
    let numbers = match options.only {
        Some(number) => number..number + 1,
        None => 0..options.files,
    };
    for number in numbers.skip(first).step_by(step) {
        let mut rng = Rng::new(!options.seed, number as u64);
        let (name, input) = inputs.get(number, &mut rng);
        let text = judge::text(&input);
        let printed = ask(&options.command, &input, &mut rng);
        tally.count(&input, &text);
        if let Some(difference) = difference(&text, printed) {
            report(options.seed, number, &name, &input, &difference);
            tally.disagreements += 1;
        }
        if tally.disagreements == ENOUGH {
            break;
        }
    }
    tally
}

struct Inputs {
    seed: u64,
    generator: Generator,
    full_size: Vec<Vec<u8>>,
}

impl Inputs {
    fn new(seed: u64) -> Inputs {
        let full_size = full_size::all().iter().map(|(_, w)| w.file()).collect();
        Inputs { seed, generator: Generator::default(), full_size }
    }

    /// The file that `compare` has under this number; sometimes with more bytes behind it, or
    /// something as long in its place.
    fn get(&self, number: usize, rng: &mut Rng) -> (String, Vec<u8>) {
        let case = self.generator.case(self.seed, number);
        if !rng.one_in(8) {
            return (case.name, case.file);
        }
        let long = READ + rng.below(LONGEST - READ);
        let (name, mut input, length) = match rng.below(6) {
            0 => (case.name, case.file, MAX_FILE),
            1 => (case.name, case.file, READ),
            2 => (case.name, case.file, READ + 1),
            3 => (case.name, case.file, long),
            4 => ("random-bytes".into(), vec![], long),
            _ => {
                let file = &self.full_size[rng.below(self.full_size.len())];
                ("full-size".into(), file.clone(), rng.pick(&[READ, READ + 7, long]))
            }
        };
        let random = input.is_empty() || rng.one_in(2);
        while input.len() < length {
            input.push(if random { rng.next() as u8 } else { 0 });
        }
        (format!("{name} made longer"), input)
    }
}

/// What the command prints, with the input on its standard input. Sometimes the input comes in two
/// pieces, so that the command's first read gets a part of it.
fn ask(command: &[String], input: &[u8], rng: &mut Rng) -> io::Result<Output> {
    let mut child = Command::new(&command[0])
        .args(&command[1..])
        .stdin(Stdio::piped())
        .stdout(Stdio::piped())
        .spawn()?;
    let mut pipe = child.stdin.take().expect("a pipe was asked for");
    let first = if rng.one_in(32) { rng.below(input.len() + 1) } else { input.len() };
    let (first, rest) = input.split_at(first);
    write(&mut pipe, first)?;
    if !rest.is_empty() {
        thread::sleep(PAUSE);
        write(&mut pipe, rest)?;
    }
    drop(pipe);
    child.wait_with_output()
}

/// Writes all, or as much as is read.
fn write(pipe: &mut ChildStdin, bytes: &[u8]) -> io::Result<()> {
    match pipe.write_all(bytes) {
        Err(error) if error.kind() == ErrorKind::BrokenPipe => Ok(()),
        written => written,
    }
}

fn difference(text: &str, printed: io::Result<Output>) -> Option<String> {
    let printed = match printed {
        Ok(printed) => printed,
        Err(error) => return Some(format!("the command cannot be run: {error}")),
    };
    if !printed.status.success() {
        return Some(format!("the command ended with {}", printed.status));
    }
    let printed = String::from_utf8_lossy(&printed.stdout);
    let (mut ours, mut theirs) = (text.split_inclusive('\n'), printed.split_inclusive('\n'));
    loop {
        let lines = (ours.next(), theirs.next());
        match lines {
            (None, None) => return None,
            (our, their) if our != their => {
                let [our, their] = [our, their].map(Option::unwrap_or_default);
                return Some(format!("this program prints {our:?}, the command {their:?}"));
            }
            _ => {}
        }
    }
}

fn report(seed: u64, number: usize, name: &str, input: &[u8], difference: &str) {
    let path = std::env::temp_dir().join(format!("texts-{seed}-{number}.trace"));
    let left = match std::fs::write(&path, input) {
        Ok(()) => format!("the input is {}", path.display()),
        Err(error) => format!("the input cannot be written: {error}"),
    };
    let length = input.len();
    println!(
        "DISAGREEMENT: seed {seed}, case {number}, {name}, {length} bytes\n  {difference}\n  {left}"
    );
}
