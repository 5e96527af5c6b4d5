//! Writes example trace files, and what the small program prints for each.

use second::generate::session::{Session, Step, FULL_HANDSHAKE, RESUMPTION};
use second::judge;
use second::message::Agent;
use second::sample::{sample, SAMPLE_SET};
use second::writer::Writer;
use std::path::Path;
use std::process::ExitCode;

const SCANNER: Agent = Agent(2);
const SERVER: Agent = Agent(3);

fn main() -> ExitCode {
    let Some(directory) = std::env::args_os().nth(1) else {
        eprintln!("write_examples DIRECTORY");
        return ExitCode::from(2);
    };
    match write_all(Path::new(&directory)) {
        Ok(()) => ExitCode::SUCCESS,
        Err(error) => {
            eprintln!("{error}");
            ExitCode::FAILURE
        }
    }
}

fn write_all(directory: &Path) -> std::io::Result<()> {
    std::fs::create_dir_all(directory)?;
    let examples = [
        ("sample", sample(SAMPLE_SET).file()),
        ("handshake", handshake().file()),
        ("repeated-secret", repeated_secret().file()),
        ("refused", refused()),
    ];
    for (name, file) in examples {
        let text = judge::text(&file);
        std::fs::write(directory.join(format!("{name}.trace")), &file)?;
        std::fs::write(directory.join(format!("{name}.out")), &text)?;
        let last = text.lines().last().unwrap_or_default();
        println!("{name}: {} bytes, {last}", file.len());
    }
    Ok(())
}

/// A full handshake, and its session resumed with new nonces.
fn handshake() -> Writer {
    let mut w = Writer::new(SAMPLE_SET);
    let session = Session::new(&mut w, SCANNER, SERVER, 7, 1, 2);
    session.play(&mut w, &FULL_HANDSHAKE);
    let resumed = session.resumed(&mut w, 1, 2);
    resumed.play(&mut w, &RESUMPTION);
    w
}

/// A full handshake; after a deep sleep the scanner greets the server with a new nonce, but
/// repeats its pre-master secret.
fn repeated_secret() -> Writer {
    let mut w = Writer::new(SAMPLE_SET);
    let session = Session::new(&mut w, SCANNER, SERVER, 7, 1, 2);
    session.play(&mut w, &FULL_HANDSHAKE);
    let (na, nb) = (w.fresh_nonce(), w.fresh_nonce());
    let m = w.prf(session.pms, na, nb);
    let sid = w.number(8);
    let after_sleep = Session { na, nb, m, sid, ..session };
    let steps = [
        Step::ClientHello,
        Step::ServerHello,
        Step::Certificate,
        Step::KeyExchange,
        Step::ClientFinished,
        Step::ServerFinished,
    ];
    after_sleep.play(&mut w, &steps);
    w
}

/// The sample, with row 3 made equal to row 2.
fn refused() -> Vec<u8> {
    let mut file = sample(SAMPLE_SET).file();
    file.copy_within(36..44, 44);
    file
}
