//! The sample of document 01, "The sample, and cases beside it".

use crate::file::Event;
use crate::message::{Agent, Id, AUTHORITY, SPY};
use crate::writer::Writer;

/// The sample's compromised agents, as a bit set: the Spy alone.
pub const SAMPLE_SET: u64 = 1;

/// The sample, with its 17 rows and 6 events, under the given compromised agents.
pub fn sample(compromised: u64) -> Writer {
    let (scanner, server) = (Agent(2), Agent(3));
    let mut w = Writer::new(compromised);
    let rows = [
        w.agent(scanner),
        w.nonce(10),
        w.number(7),
        w.number(1),
        w.pair(Id(2), Id(3)),
        w.pair(Id(1), Id(4)),
        w.pair(Id(0), Id(5)),
        w.nonce(11),
        w.pair(Id(7), Id(4)),
        w.agent(server),
        w.public_key(server),
        w.pair(Id(9), Id(10)),
        w.private_key(AUTHORITY),
        w.crypt(Id(12), Id(11)),
        w.nonce(12),
        w.pair(Id(9), Id(14)),
        w.crypt(Id(10), Id(14)),
    ];
    debug_assert!(rows.iter().copied().eq(w.messages.ids()));
    w.events = vec![
        Event::Says(scanner, server, Id(6)),
        Event::Says(server, scanner, Id(8)),
        Event::Says(server, scanner, Id(13)),
        Event::Notes(scanner, Id(15)),
        Event::Says(scanner, server, Id(16)),
        Event::Says(SPY, server, Id(16)),
    ];
    w
}

#[cfg(test)]
mod tests {
    use super::*;
    use crate::file::Refusal;
    use crate::judge::{fault, knowledge, text, verdict, Verdict};

    fn judge(w: &Writer) -> Verdict {
        verdict(&w.file(), &mut [0xa5; 512])
    }

    fn rules(w: &Writer) -> Vec<u8> {
        let mut rules = vec![0xa5; w.events.len()];
        verdict(&w.file(), &mut rules);
        rules
    }

    fn marks(w: &Writer, n: usize) -> Vec<u8> {
        let mut marks = vec![0xa5; w.messages.len()];
        knowledge(&w.file(), n, &mut marks).unwrap();
        marks
    }

    fn refused(cause: u32, place: u32) -> Verdict {
        Verdict::Refused { cause, place }
    }

    #[test]
    fn p1_empty_file() {
        let file = Writer::new(SAMPLE_SET).file();
        assert_eq!(file.len(), 20);
        assert_eq!(verdict(&file, &mut []), Verdict::Accepted(0));
        assert_eq!(text(&file), "accepted 0\n");
    }

    #[test]
    fn p2_sample() {
        let file = sample(SAMPLE_SET).file();
        assert_eq!(file.len(), 204);
        assert_eq!(text(&file), "0 3\n1 4\n2 5\n3 6\n4 6\n5 1\naccepted 6\n");
        assert_eq!(fault(&file), (0, 0));
    }

    #[test]
    fn p3_note_lacks_its_message() {
        let mut w = sample(SAMPLE_SET);
        w.events.truncate(4);
        assert_eq!(judge(&w), Verdict::Illegal(3));
        assert_eq!(rules(&w), [3, 4, 5, 0]);
        assert_eq!(fault(&w.file()), (20 + 8 * 17 + 8 * 3, 8));
        assert_eq!(text(&w.file()), "0 3\n1 4\n2 5\nillegal 3\n");
    }

    #[test]
    fn p4_message_before_its_note() {
        let mut w = sample(SAMPLE_SET);
        w.events.swap(3, 4);
        assert_eq!(judge(&w), Verdict::Illegal(3));
    }

    #[test]
    fn p5_nonce_used_again() {
        let mut w = sample(SAMPLE_SET);
        w.says(Agent(2), Agent(3), Id(6));
        assert_eq!(judge(&w), Verdict::Illegal(6));
        assert_eq!(rules(&w), [3, 4, 5, 6, 6, 1, 0]);
    }

    #[test]
    fn p6_no_certificate() {
        let mut w = sample(SAMPLE_SET);
        w.events.remove(2);
        assert_eq!(judge(&w), Verdict::Illegal(2));
    }

    #[test]
    fn p7_secret_is_known_with_the_servers_key() {
        for (set, expected) in [(1, Verdict::Illegal(5)), (9, Verdict::Accepted(6))] {
            let mut w = sample(set);
            w.events[5] = Event::Says(SPY, Agent(3), Id(14));
            assert_eq!(judge(&w), expected);
        }
    }

    #[test]
    fn p8_knowledge() {
        let expected = [2, 2, 2, 2, 2, 2, 2, 2, 2, 1, 0, 0, 0, 2, 0, 0, 2];
        assert_eq!(marks(&sample(SAMPLE_SET), 6), expected);
    }

    #[test]
    fn p9_knowledge_with_the_servers_key() {
        let expected = [2, 2, 2, 2, 2, 2, 2, 2, 2, 1, 0, 0, 0, 2, 2, 1, 2];
        assert_eq!(marks(&sample(9), 6), expected);
    }

    #[test]
    fn p10_greeting_oneself() {
        let mut w = sample(SAMPLE_SET);
        w.events = vec![Event::Says(Agent(2), Agent(2), Id(6))];
        assert_eq!(judge(&w), Verdict::Accepted(1));
        assert_eq!(rules(&w), [3]);
    }

    #[test]
    fn sets_0_and_3() {
        assert_eq!(judge(&sample(0)), refused(3, 0));
        assert_eq!(judge(&sample(3)), refused(3, 0));
    }

    #[test]
    fn nineteen_bytes() {
        let file = sample(SAMPLE_SET).file();
        assert_eq!(verdict(&file[..19], &mut [0; 6]), refused(1, 0));
        assert_eq!(text(&file[..19]), "refused 1 0\n");
    }

    #[test]
    fn row_count_1025() {
        let mut file = sample(SAMPLE_SET).file();
        file[14..16].copy_from_slice(&1025u16.to_le_bytes());
        assert_eq!(verdict(&file, &mut [0; 6]), refused(4, 0));
    }

    #[test]
    fn row_3_equal_to_row_2() {
        let mut file = sample(SAMPLE_SET).file();
        file.copy_within(36..44, 44);
        assert_eq!(verdict(&file, &mut [0; 6]), refused(6, 3));
        assert_eq!(fault(&file), (44, 8));
        assert_eq!(text(&file), "refused 6 3\n");
    }

    #[test]
    fn verdict_buffer_of_5_and_of_6() {
        let file = sample(SAMPLE_SET).file();
        let mut buffer = [0xa5; 5];
        assert_eq!(verdict(&file, &mut buffer), refused(8, 0));
        assert_eq!(buffer, [0xa5; 5]);
        assert_eq!(verdict(&file, &mut [0xa5; 6]), Verdict::Accepted(6));
    }

    #[test]
    fn n_above_the_events() {
        let file = sample(SAMPLE_SET).file();
        let mut buffer = [0xa5; 17];
        let refusal = Refusal { cause: 9, place: 0 };
        assert_eq!(knowledge(&file, 7, &mut buffer), Err(refusal));
        let refusal = Refusal { cause: 8, place: 0 };
        assert_eq!(knowledge(&file, 7, &mut buffer[..16]), Err(refusal));
        assert_eq!(buffer, [0xa5; 17]);
    }

    #[test]
    fn bytes_past_the_events_and_rows_keep_their_content() {
        let file = sample(SAMPLE_SET).file();
        let mut buffer = [0xa5; 20];
        verdict(&file, &mut buffer);
        assert_eq!(buffer[..6], [3, 4, 5, 6, 6, 1]);
        assert_eq!(buffer[6..], [0xa5; 14]);
        buffer.fill(0xa5);
        knowledge(&file, 6, &mut buffer).unwrap();
        assert_eq!(buffer[17..], [0xa5; 3]);
    }

    #[test]
    fn only_12309_bytes_are_judged() {
        assert_eq!(text(&[0; 20_000]), "refused 2 0\n");
        let mut file = sample(SAMPLE_SET).file();
        file.resize(20_000, 0);
        assert_eq!(text(&file), "refused 4 0\n");
    }
}
