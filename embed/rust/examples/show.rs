//! Asks the three questions about each file that is named, and prints the replies.
use mirzhelo::{fault_place, knowledge, verdict, Refusal, Verdict};

fn print_bytes(name: &str, bytes: &[u8]) {
    let words: String = bytes.iter().map(|byte| format!(" {byte}")).collect();
    println!("{name}:{words}");
}

fn print_refusal(refusal: Refusal) {
    println!("refused {} {}", refusal.cause, refusal.place);
}

fn show(file: &[u8]) {
    let mut rules = [0; 512];
    let mut marks = [0; 1024];
    let word = match verdict(file, &mut rules) {
        Verdict::Refused(refusal) => {
            print_refusal(refusal);
            None
        }
        Verdict::Illegal(n) => Some(format!("illegal {n}")),
        Verdict::Accepted(n) => Some(format!("accepted {n}")),
    };
    if let Some(word) = word {
        let rows = usize::from(u16::from_le_bytes([file[14], file[15]]));
        let events = usize::from(u16::from_le_bytes([file[18], file[19]]));
        print_bytes(&word, &rules[..events]);
        if let Err(refusal) = knowledge(file, events, &mut marks) {
            print_refusal(refusal);
        }
        print_bytes("known", &marks[..rows]);
    }
    let (start, length) = fault_place(file);
    println!("fault: {length} bytes at {start}");
}

fn main() -> std::io::Result<()> {
    for name in std::env::args().skip(1) {
        show(&std::fs::read(name)?);
    }
    Ok(())
}
