//! Times the judge's archive and the second program, this one, on the same files, in one run.

use second::archive;
use second::file::{MAX_EVENTS, MAX_ROWS};
use second::generate::full_size;
use second::generate::session::{Session, FULL_HANDSHAKE, RESUMPTION};
use second::judge;
use second::message::Agent;
use second::writer::Writer;
use std::hint::black_box;
use std::path::{Path, PathBuf};
use std::time::{Duration, Instant};

const DEFAULT_DIRECTORY: &str = concat!(env!("CARGO_MANIFEST_DIR"), "/../../shared/bench");
/// About how long one question to one program is repeated.
const TIME_PER_MEDIAN: Duration = Duration::from_millis(60);
/// How long a reading of the clock has to cover at least: short calls are timed several at once,
/// since the clock itself takes as long as one of them.
const TIME_PER_READING: Duration = Duration::from_millis(2);
const MIN_RUNS: usize = 9;
const MAX_RUNS: usize = 2001;
/// What the lent buffers hold before each call.
const FILLING: u8 = 0xa5;

fn main() {
    let directory = std::env::args_os().nth(1);
    let directory = directory.map_or(DEFAULT_DIRECTORY.into(), PathBuf::from);
    let mut files = trace_files(&directory);
    files.extend(own_files());

    println!("Medians of repeated calls, in microseconds, one thread. Each call lends a buffer of");
    println!(
        "{MAX_EVENTS} bytes (verdict) or {MAX_ROWS} bytes (knowledge, after all events) that is"
    );
    println!(
        "filled with {FILLING:#x} before the call, outside the clock. Calls shorter than {} microseconds",
        TIME_PER_READING.as_micros()
    );
    println!("are timed several at once. The columns \"archive\" and \"second\" are the times of the two");
    println!("programs; a ratio says how many times longer the second one takes.\n");
    println!("| file | bytes | reply | verdict: archive | second | ratio | knowledge: archive | second | ratio |");
    println!("|---|--:|---|--:|--:|--:|--:|--:|--:|");
    for (name, file) in &files {
        let (verdict, knowledge) = (Times::of_verdict(file), Times::of_knowledge(file));
        println!("| {name} | {} | {} | {verdict} | {knowledge} |", file.len(), last_line(file),);
    }

    println!("\nGrowth with the number of events, in microseconds.\n");
    println!("| shape | events | rows | verdict: archive | second | ratio | knowledge: archive | second | ratio |");
    println!("|---|--:|--:|--:|--:|--:|--:|--:|--:|");
    let shapes: [(&str, full_size::Shape); 3] = [
        ("handshakes", full_size::handshakes),
        ("Fakes", full_size::fakes),
        ("resumptions", full_size::resumptions),
    ];
    for (name, shape) in shapes {
        for events in [64, 128, 256, 512] {
            let w = shape(events);
            let file = w.file();
            let (verdict, knowledge) = (Times::of_verdict(&file), Times::of_knowledge(&file));
            let rows = w.messages.len();
            println!("| {name} | {events} | {rows} | {verdict} | {knowledge} |");
        }
    }
}

/// The `*.trace` files of a directory, by name.
fn trace_files(directory: &Path) -> Vec<(String, Vec<u8>)> {
    let Ok(entries) = std::fs::read_dir(directory) else {
        println!("No directory {}: own files only.\n", directory.display());
        return Vec::new();
    };
    let mut files: Vec<(String, Vec<u8>)> = entries
        .filter_map(|entry| entry.ok().map(|entry| entry.path()))
        .filter(|path| path.extension().is_some_and(|end| end == "trace"))
        .filter_map(|path| {
            let name = path.file_stem()?.to_string_lossy().into_owned();
            Some((name, std::fs::read(&path).ok()?))
        })
        .collect();
    files.sort();
    files
}

/// Files made here: a typical handshake, all full-size shapes, and one refused at its end.
fn own_files() -> Vec<(String, Vec<u8>)> {
    let mut w = Writer::new(1);
    let session = Session::new(&mut w, Agent(2), Agent(3), 7, 1, 2);
    session.play(&mut w, &FULL_HANDSHAKE);
    let typical = w.file();
    session.resumed(&mut w, 1, 2).play(&mut w, &RESUMPTION);
    let mut files = vec![
        ("own: typical handshake".into(), typical),
        ("own: handshake and resumption".into(), w.file()),
    ];
    for (name, w) in full_size::all() {
        files.push((format!("own: full-size {name}"), w.file()));
    }
    let mut refused = full_size::all()[0].1.file();
    *refused.last_mut().expect("a full-size file") = 1;
    files.push(("own: refused at the last event".into(), refused));
    files
}

/// The verdict as the small program prints it.
fn last_line(file: &[u8]) -> String {
    let text = judge::text(file);
    text.lines().last().unwrap_or_default().into()
}

/// This program's answers, asked for as the archive's are: by a call, for the same number.
#[inline(never)]
fn own_verdict(file: &[u8], rules: &mut [u8]) -> u32 {
    archive::verdict_word(judge::verdict(file, rules))
}

#[inline(never)]
fn own_knowledge(file: &[u8], n: usize, marks: &mut [u8]) -> u32 {
    archive::knowledge_word(judge::knowledge(file, n, marks))
}

/// The times of both programs for one question, in microseconds.
struct Times {
    archive: f64,
    second: f64,
}

impl Times {
    fn of_verdict(file: &[u8]) -> Times {
        let ours = own_verdict(file, &mut [0; MAX_EVENTS]);
        assert_eq!(ours, archive::verdict(file, &mut [0; MAX_EVENTS]));
        Times {
            archive: median(MAX_EVENTS, |rules| archive::verdict(black_box(file), rules)),
            second: median(MAX_EVENTS, |rules| own_verdict(black_box(file), rules)),
        }
    }

    fn of_knowledge(file: &[u8]) -> Times {
        let n = match file.get(18..20) {
            Some(count) => u16::from_le_bytes([count[0], count[1]]) as usize,
            None => 0,
        };
        let ours = own_knowledge(file, n, &mut [0; MAX_ROWS]);
        assert_eq!(ours, archive::knowledge(file, n, &mut [0; MAX_ROWS]));
        Times {
            archive: median(MAX_ROWS, |marks| archive::knowledge(black_box(file), n, marks)),
            second: median(MAX_ROWS, |marks| own_knowledge(black_box(file), n, marks)),
        }
    }
}

impl std::fmt::Display for Times {
    fn fmt(&self, f: &mut std::fmt::Formatter) -> std::fmt::Result {
        let Times { archive, second } = self;
        write!(f, "{archive:.2} | {second:.2} | {:.1}", second / archive)
    }
}

/// The median time of one call, over an odd number of readings of the clock.
fn median<T>(length: usize, mut call: impl FnMut(&mut [u8]) -> T) -> f64 {
    let mut buffer = vec![FILLING; length];
    let mut timed = |calls: usize| {
        buffer.fill(FILLING);
        let start = Instant::now();
        for _ in 0..calls {
            black_box(call(black_box(&mut buffer)));
        }
        start.elapsed()
    };
    timed(1);
    let mut calls = 1;
    let mut first = timed(calls);
    while first < TIME_PER_READING {
        calls *= 2;
        first = timed(calls);
    }
    let runs = (TIME_PER_MEDIAN.as_nanos() / first.as_nanos()) as usize;
    let runs = runs.clamp(MIN_RUNS, MAX_RUNS) | 1;
    let mut times: Vec<Duration> = (0..runs).map(|_| timed(calls)).collect();
    times.sort();
    times[runs / 2].as_secs_f64() * 1e6 / calls as f64
}
