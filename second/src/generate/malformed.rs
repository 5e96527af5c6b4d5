//! Malformed files: each cause and place, two faults at once, truncations, bit flips and noise.

use crate::file::{row_offset, MAX_EVENTS, MAX_FILE, MAX_ROWS};
use crate::rng::Rng;

/// A fault by name, which starts with the refusal that it alone leads to. It gives false where
/// the file has no place for it.
pub type Fault = (&'static str, fn(&mut Vec<u8>, &mut Rng) -> bool);

pub const FAULTS: [Fault; 36] = [
    ("1-short", |file, rng| {
        file.truncate(rng.below(20));
        true
    }),
    ("2-version", |file, rng| {
        let version = rng.pick(&[0, 2, 255, 256, 257, 0xffff]);
        put_u16(file, 0, version);
        true
    }),
    ("2-zeros", |file, rng| {
        file[2 + rng.below(2)] = 1 << rng.below(8);
        true
    }),
    ("3-spy-honest", |file, _| {
        file[4] &= !1;
        true
    }),
    ("3-authority-compromised", |file, _| {
        file[4] |= 2;
        true
    }),
    ("4-rows-over-limit", |file, rng| {
        let rows = rng.pick(&[1025, 1026, 2048, 8191, 8192, 0xffff]);
        put_u16(file, 14, rows);
        true
    }),
    ("4-rows-over-limit-and-all-else-fits", |file, _| {
        let (rows, events) = counts(file);
        let more = MAX_ROWS + 1 - rows;
        let new = (0..more).flat_map(|i| [1, 0, i as u8, 64 + (i >> 8) as u8, 0, 0, 0, 0]);
        let at = row_offset(rows);
        file.splice(at..at, new);
        put_counts(file, rows + more, events);
        true
    }),
    ("4-rows-that-wrap-around", |file, rng| {
        let rows = counts(file).0 + 8192 * (1 + rng.below(7));
        put_u16(file, 14, rows as u16);
        true
    }),
    ("4-events-that-wrap-around", |file, rng| {
        let events = counts(file).1 + 8192 * (1 + rng.below(7));
        put_u16(file, 18, events as u16);
        true
    }),
    ("4-events-over-limit", |file, rng| {
        let events = rng.pick(&[513, 514, 1024, 8192, 0xffff]);
        put_u16(file, 18, events);
        true
    }),
    ("4-events-over-limit-and-all-else-fits", |file, _| {
        let (rows, events) = counts(file);
        file.resize(row_offset(rows) + 8 * (MAX_EVENTS + 1), 0);
        put_counts(file, rows, events.max(MAX_EVENTS + 1));
        true
    }),
    ("4-rows-offset", |file, rng| {
        let offset = rng.pick(&[0, 12, 19, 21, 28, 20 + 256, 0xffff]);
        put_u16(file, 12, offset);
        true
    }),
    ("4-events-offset", |file, rng| {
        let offset = row_offset(counts(file).0);
        let offset = rng.pick(&[0, offset - 8, offset - 1, offset + 1, offset + 8, 0xffff]);
        put_u16(file, 16, offset as u16);
        true
    }),
    ("4-one-row-more", |file, _| {
        let (rows, events) = counts(file);
        put_counts(file, rows + 1, events);
        true
    }),
    ("4-one-event-more", |file, _| {
        let (rows, events) = counts(file);
        put_counts(file, rows, events + 1);
        true
    }),
    ("4-longer", |file, rng| {
        let length = file.len() + rng.pick(&[1, 7, 8, 9, 16]);
        file.resize(length, 0);
        true
    }),
    ("4-longer-than-any", |file, rng| {
        let length = MAX_FILE + 1 + rng.below(9);
        file.resize(length, 0);
        true
    }),
    ("4-longer-by-65536", |file, _| {
        file.resize(file.len() + 65536, 0);
        true
    }),
    ("4-shorter", |file, rng| {
        let length = file.len();
        file.truncate(20 + rng.below((length - 20).max(1)));
        file.len() < length
    }),
    ("5-kind", |file, rng| {
        with_row(
            file,
            rng,
            |_, _| true,
            |row, _, rng| {
                row[0] = rng.pick(&[10, 11, 16, 128, 255]);
            },
        )
    }),
    ("5-role-of-other-kind", |file, rng| {
        with_row(
            file,
            rng,
            |row, _| row[0] != 6,
            |row, _, rng| {
                row[1] = rng.pick(&[1, 2, 128, 255]);
            },
        )
    }),
    ("5-role-of-session-key", |file, rng| {
        with_row(
            file,
            rng,
            |row, _| row[0] == 6,
            |row, _, rng| {
                row[1] = rng.pick(&[2, 3, 128, 255]);
            },
        )
    }),
    ("5-agent", |file, rng| {
        with_row(
            file,
            rng,
            |row, _| [0, 4, 5].contains(&row[0]),
            |row, _, rng| {
                let agent = rng.pick(&[64, 65, 127, 255, 256, 0xffff]);
                put_u16(row, 2, agent);
            },
        )
    }),
    ("5-reference-to-itself-or-above", |file, rng| {
        with_row(
            file,
            rng,
            |row, _| references(row) > 0,
            |row, number, rng| {
                let at = 2 + 2 * rng.below(references(row));
                let reference = rng.pick(&[number, number + 1, number + 256, 0xffff]);
                put_u16(row, at, reference);
            },
        )
    }),
    ("5-reference-of-wrong-kind", |file, rng| {
        let rows: Vec<u8> = file[20..].to_vec();
        let kind_of = |row: u16| rows[8 * row as usize];
        let mut wrong = |row: &[u8], number: u16| -> Option<(usize, u16)> {
            let (at, fits): (usize, fn(u8) -> bool) = match row[0] {
                3 | 6 => (2 + 2 * rng.below(3), |kind| matches!(kind, 2 | 3)),
                8 => (2, |kind| matches!(kind, 4..=6)),
                _ => return None,
            };
            let below: Vec<u16> = (0..number).filter(|&x| !fits(kind_of(x))).collect();
            Some((at, rng.choose(&below)?))
        };
        let mut changes = Vec::new();
        for number in 0..counts(file).0 {
            let row = &file[row_offset(number)..][..8];
            if let Some((at, reference)) = wrong(row, number as u16) {
                changes.push((number, at, reference));
            }
        }
        let Some((number, at, reference)) = rng.choose(&changes) else {
            return false;
        };
        put_u16(&mut file[row_offset(number)..], at, reference);
        true
    }),
    ("5-unnamed-field", |file, rng| {
        with_row(
            file,
            rng,
            |row, _| unnamed(row).is_some(),
            |row, _, rng| {
                let from = unnamed(row).expect("this kind has unnamed fields");
                row[from + rng.below(8 - from)] = 1 << rng.below(8);
            },
        )
    }),
    ("6-equal-rows", |file, rng| {
        let (rows, events) = counts(file);
        if rows == 0 || rows == MAX_ROWS {
            return false;
        }
        let from = row_offset(rng.below(rows));
        let row: Vec<u8> = file[from..from + 8].to_vec();
        let at = row_offset(rows);
        file.splice(at..at, row);
        put_counts(file, rows + 1, events);
        true
    }),
    ("6-equal-leaves", |file, rng| {
        let (rows, _) = counts(file);
        let leaves: Vec<usize> =
            (0..rows).filter(|&row| file[row_offset(row)] == 1).map(row_offset).collect();
        if leaves.len() < 2 {
            return false;
        }
        let later = 1 + rng.below(leaves.len() - 1);
        let earlier = leaves[rng.below(later)];
        file.copy_within(earlier..earlier + 8, leaves[later]);
        true
    }),
    ("7-kind", |file, rng| {
        with_event(
            file,
            rng,
            |_| true,
            |event, _, rng| {
                event[0] = rng.pick(&[2, 3, 128, 255]);
            },
        )
    }),
    ("7-agent", |file, rng| {
        with_event(
            file,
            rng,
            |_| true,
            |event, _, rng| {
                event[1] = rng.pick(&[64, 65, 128, 255]);
            },
        )
    }),
    ("7-receiver", |file, rng| {
        with_event(
            file,
            rng,
            |event| event[0] == 0,
            |event, _, rng| {
                event[2] = rng.pick(&[64, 65, 128, 255]);
            },
        )
    }),
    ("7-receiver-of-note", |file, rng| {
        with_event(
            file,
            rng,
            |event| event[0] == 1,
            |event, _, rng| {
                event[2] = rng.pick(&[1, 2, 63, 64, 255]);
            },
        )
    }),
    ("7-byte-3", |file, rng| {
        with_event(
            file,
            rng,
            |_| true,
            |event, _, rng| {
                event[3] = 1 << rng.below(8);
            },
        )
    }),
    ("7-bytes-6-and-7", |file, rng| {
        with_event(
            file,
            rng,
            |_| true,
            |event, _, rng| {
                event[6 + rng.below(2)] = 1 << rng.below(8);
            },
        )
    }),
    ("7-row", |file, rng| {
        with_event(
            file,
            rng,
            |_| true,
            |event, rows, rng| {
                let row = rng.pick(&[rows, rows + 1, rows + 256, 0xffff]);
                put_u16(event, 4, row);
            },
        )
    }),
    ("7-no-rows-at-all", |file, rng| {
        let (rows, events) = counts(file);
        if events == 0 {
            return false;
        }
        file.drain(20..row_offset(rows));
        put_counts(file, 0, events);
        let kept = 1 + rng.below(events);
        file.truncate(20 + 8 * kept);
        put_counts(file, 0, kept);
        true
    }),
];

/// Spoils the file in a way that need not lead to any one refusal, and names it.
pub fn spoil(file: &mut Vec<u8>, rng: &mut Rng) -> &'static str {
    match rng.below(8) {
        0 | 1 => {
            for _ in 0..1 + rng.below(3) {
                let at = rng.below(file.len());
                file[at] ^= 1 << rng.below(8);
            }
            "flipped-bits"
        }
        2 => {
            let length = rng.below(file.len());
            file.truncate(length);
            "truncated"
        }
        3 => {
            let length = rng.below(300);
            *file = (0..length).map(|_| rng.next() as u8).collect();
            "random-bytes"
        }
        4 => {
            for byte in &mut file[20..] {
                *byte = rng.next() as u8;
            }
            "random-rows-and-events"
        }
        5 => {
            for (row, bytes) in file[20..].chunks_mut(8).enumerate() {
                let small = |rng: &mut Rng| rng.below(1 + row) as u8;
                bytes.fill(0);
                bytes[0] = rng.below(10) as u8;
                bytes[2] = small(rng);
                bytes[4] = small(rng);
                bytes[6] = if rng.one_in(2) { small(rng) } else { 0 };
            }
            "random-small-fields"
        }
        _ => {
            let deep = rng.one_in(2);
            let faults: Vec<Fault> =
                FAULTS.into_iter().filter(|(name, _)| !deep || *name > "5").collect();
            for _ in 0..2 {
                let (_, fault) = rng.pick(&faults);
                if file.len() >= 20 && counts_fit(file) {
                    fault(file, rng);
                }
            }
            "two-faults"
        }
    }
}

fn u16_at(bytes: &[u8], at: usize) -> u16 {
    u16::from_le_bytes([bytes[at], bytes[at + 1]])
}

fn put_u16(bytes: &mut [u8], at: usize, value: u16) {
    bytes[at..at + 2].copy_from_slice(&value.to_le_bytes());
}

/// The numbers of rows and events.
fn counts(file: &[u8]) -> (usize, usize) {
    (u16_at(file, 14) as usize, u16_at(file, 18) as usize)
}

/// Writes these counts and the offset that follows from them.
fn put_counts(file: &mut [u8], rows: usize, events: usize) {
    put_u16(file, 14, rows as u16);
    put_u16(file, 16, row_offset(rows) as u16);
    put_u16(file, 18, events as u16);
}

fn counts_fit(file: &[u8]) -> bool {
    let (rows, events) = counts(file);
    rows <= MAX_ROWS && events <= MAX_EVENTS && file.len() == row_offset(rows) + 8 * events
}

/// How many of the row's fields refer to rows.
fn references(row: &[u8]) -> usize {
    match row[0] {
        3 | 6 => 3,
        7 => 1,
        8 | 9 => 2,
        _ => 0,
    }
}

/// Where the row's unnamed fields start, if it has any.
fn unnamed(row: &[u8]) -> Option<usize> {
    match row[0] {
        3 | 6 => None,
        8 | 9 => Some(6),
        _ => Some(4),
    }
}

/// Changes one of the rows that fit, with its number at hand.
fn with_row(
    file: &mut [u8],
    rng: &mut Rng,
    fits: fn(&[u8], usize) -> bool,
    change: fn(&mut [u8], u16, &mut Rng),
) -> bool {
    let rows: Vec<usize> =
        (0..counts(file).0).filter(|&row| fits(&file[row_offset(row)..][..8], row)).collect();
    let chosen = rng.choose(&rows);
    if let Some(row) = chosen {
        change(&mut file[row_offset(row)..][..8], row as u16, rng);
    }
    chosen.is_some()
}

/// Changes one of the events that fit, with the number of rows at hand.
fn with_event(
    file: &mut [u8],
    rng: &mut Rng,
    fits: fn(&[u8]) -> bool,
    change: fn(&mut [u8], u16, &mut Rng),
) -> bool {
    let (rows, events) = counts(file);
    let events: Vec<usize> =
        (rows..rows + events).map(row_offset).filter(|&at| fits(&file[at..at + 8])).collect();
    let chosen = rng.choose(&events);
    if let Some(at) = chosen {
        change(&mut file[at..at + 8], rows as u16, rng);
    }
    chosen.is_some()
}

#[cfg(test)]
mod tests {
    use super::*;
    use crate::generate::session::{Session, FULL_HANDSHAKE};
    use crate::judge::{fault, verdict, Verdict};
    use crate::message::Agent;
    use crate::writer::Writer;

    #[test]
    fn each_fault_leads_to_its_refusal() {
        let mut w = Writer::new(1);
        let session = Session::new(&mut w, Agent(2), Agent(3), 7, 1, 2);
        session.play(&mut w, &FULL_HANDSHAKE);
        let file = w.file();
        for (name, apply) in FAULTS {
            for seed in 0..50 {
                let mut rng = Rng::new(seed, 2);
                let mut file = file.clone();
                assert!(apply(&mut file, &mut rng), "{name} has no place");
                let Verdict::Refused { cause, place } = verdict(&file, &mut [0; 512]) else {
                    panic!("{name} is not refused");
                };
                assert!(name.starts_with(&format!("{cause}-")), "{name}: {cause}");
                let (_, length) = fault(&file);
                assert_eq!(length, if cause >= 5 { 8 } else { 0 });
                assert!(cause >= 5 || place == 0);
            }
        }
    }
}
