//! The job call: the refusals at their boundaries, damaged jobs, and the same answers as the record calls give.

mod common;

use common::model::Model;
use common::{job_of, Random};
use tsarovima::{job, Checker, JobRefusal, Listing, Node, Record, LISTING_NUMBERS, MOST_ANSWER_BYTES, MOST_RECORDS};

const BYTE: u8 = 0x5A;
const MARK: u16 = 0x5AA5;

/// The bytes of a job's header, as document 01 judges them, for buffers that are long enough.
fn judged(bytes: &[u8]) -> Option<JobRefusal> {
    let field = |at: usize| u32::from_le_bytes([bytes[at], bytes[at + 1], bytes[at + 2], bytes[at + 3]]);
    if bytes.len() < 16 {
        Some(JobRefusal::Short)
    } else if field(0) != 1 {
        Some(JobRefusal::Format)
    } else if field(4) > 4096 {
        Some(JobRefusal::Count)
    } else if field(8) != 16 {
        Some(JobRefusal::Offset)
    } else if field(12) != 16 + 8 * field(4) || bytes.len() != 16 + 8 * field(4) as usize {
        Some(JobRefusal::Length)
    } else {
        None
    }
}

/// Runs bytes as a job, and looks at all that document 01 says of the outcome.
fn check(bytes: &[u8]) {
    let (untouched, unlisted) = (vec![BYTE; MOST_ANSWER_BYTES + 1], vec![MARK; LISTING_NUMBERS + 1]);
    let (mut answers, mut listing) = (untouched.clone(), unlisted.clone());
    let outcome = job(bytes, &mut answers, &mut listing);
    assert_eq!(outcome.err(), judged(bytes));
    let (mut answered, mut listed) = (0, 0);
    if outcome.is_ok() {
        let mut model = Model::new();
        for (record, answer) in bytes[16..].chunks_exact(8).zip(answers.chunks_exact(8)) {
            let expected = model.put(record.try_into().unwrap());
            assert_eq!(tsarovima::Answer::read(answer.try_into().unwrap()), expected);
        }
        assert_eq!(listing[..model.listing.len()], model.listing);
        assert_eq!(Listing::read(&listing).unwrap().numbers(), model.listing);
        (answered, listed) = (bytes.len() - 16, model.listing.len());
    }
    assert!(answers[answered..] == untouched[answered..]);
    assert!(listing[listed..] == unlisted[listed..]);
}

fn sample() -> Vec<u8> {
    use Node::*;
    let nodes = [Witness, Unit, Pair(0, 1), Word(8), Unit, Comp(4, 3), Word(8), Unit, Comp(7, 6), Case(5, 8), Comp(2, 9)];
    let mut records: Vec<[u8; 8]> = nodes.iter().map(|node| Record::Offer(*node).bytes()).collect();
    records.push(Record::Close.bytes());
    records.push(Record::TakeBack(3).bytes());
    records.push(Record::Offer(Disconnect(2, None)).bytes());
    job_of(&records)
}

#[test]
fn a_sound_job() {
    check(&sample());
    check(&job_of(&[]));
}

#[test]
fn every_bit_of_a_job_flipped() {
    let sound = sample();
    for bit in 0..8 * sound.len() {
        let mut damaged = sound.clone();
        damaged[bit / 8] ^= 1 << (bit % 8);
        check(&damaged);
    }
}

#[test]
fn a_job_cut_and_lengthened() {
    let sound = sample();
    for length in 0..sound.len() {
        check(&sound[..length]);
    }
    for more in 1..20 {
        let mut long = sound.clone();
        long.resize(sound.len() + more, 0);
        check(&long);
    }
}

#[test]
fn bytes_that_are_no_job() {
    let mut random = Random::new(3);
    for length in 0..64 {
        let bytes: Vec<u8> = (0..length).map(|_| random.below(256) as u8).collect();
        check(&bytes);
    }
    // the same behind a sound header: records of any bytes
    for count in 0..40 {
        let records: Vec<[u8; 8]> = (0..count).map(|_| [(); 8].map(|_| random.below(256) as u8)).collect();
        check(&job_of(&records));
    }
}

#[test]
fn header_fields_at_their_limits() {
    let header = |fields: [u32; 4]| -> Vec<u8> { fields.iter().flat_map(|field| field.to_le_bytes()).collect() };
    let fields = [0, 1, 2, 15, 16, 17, 24, 4096, 4097, 32784, 0x2000_0000, 0x8000_0000, 0xFFFF_FFF8, u32::MAX];
    for format in [0, 1, 2, 257, u32::MAX] {
        for count in fields {
            for offset in [0, 15, 16, 17, u32::MAX] {
                for length in fields {
                    let bytes = header([format, count, offset, length]);
                    // What fits is a job of no records.
                    let mut listing = vec![0; LISTING_NUMBERS];
                    assert_eq!(job(&bytes, &mut [], &mut listing).err(), judged(&bytes));
                }
            }
        }
    }
}

#[test]
fn buffers_one_short_are_refused_and_untouched() {
    let bytes = sample();
    let need = bytes.len() - 16;
    for (answers, listing, refusal) in [
        (0, LISTING_NUMBERS, JobRefusal::Answers),
        (need - 1, LISTING_NUMBERS, JobRefusal::Answers),
        (need - 1, LISTING_NUMBERS - 1, JobRefusal::Answers),
        (need, LISTING_NUMBERS - 1, JobRefusal::Listing),
        (need, 0, JobRefusal::Listing),
    ] {
        let (mut answers, mut listing) = (vec![BYTE; answers], vec![MARK; listing]);
        assert_eq!(job(&bytes, &mut answers, &mut listing), Err(refusal));
        assert!(answers.iter().all(|byte| *byte == BYTE));
        assert!(listing.iter().all(|number| *number == MARK));
    }
    let (mut answers, mut listing) = (vec![BYTE; need], vec![MARK; LISTING_NUMBERS]);
    assert_eq!(job(&bytes, &mut answers, &mut listing), Ok(()));
}

#[test]
fn the_longest_job_and_one_record_more() {
    // 1,024 are kept, and the rest answered with 3; the last closes.
    let mut records = vec![Record::Offer(Node::Unit).bytes(); MOST_RECORDS];
    records[MOST_RECORDS - 1] = Record::Close.bytes();
    let mut answers = vec![BYTE; MOST_ANSWER_BYTES];
    let mut listing = vec![MARK; LISTING_NUMBERS];
    assert_eq!(job(&job_of(&records), &mut answers, &mut listing), Ok(()));
    let code = |at: usize| u16::from_le_bytes([answers[8 * at], answers[8 * at + 1]]);
    assert_eq!((code(1023), code(1024), code(MOST_RECORDS - 2), code(MOST_RECORDS - 1)), (0, 3, 3, 0));
    assert_eq!(listing[..4], [1024, 1, 4, 7]);

    records.push(Record::Close.bytes());
    let mut answers = vec![BYTE; MOST_ANSWER_BYTES + 8];
    assert_eq!(job(&job_of(&records), &mut answers, &mut listing), Err(JobRefusal::Count));
    assert!(answers.iter().all(|byte| *byte == BYTE));
}

#[test]
fn a_job_answers_as_the_record_calls_do() {
    let mut random = Random::new(5);
    for _ in 0..60 {
        let mut checker = Checker::new();
        let (mut records, mut expected, mut shown) = (vec![], vec![], vec![0, 0, 4, 4]);
        for _ in 0..80 {
            let record = random.record(checker.kept());
            records.push(record);
            expected.push(checker.put(record));
            if record[0] == 65 {
                let sound = record == Record::Close.bytes();
                let closed = if sound { checker.close().ok() } else { None };
                shown = closed.map_or(vec![0, 0, 4, 4], |listing| listing.numbers().to_vec());
            }
        }
        let mut answers = vec![BYTE; 8 * records.len()];
        let mut listing = vec![MARK; LISTING_NUMBERS];
        job(&job_of(&records), &mut answers, &mut listing).unwrap();
        for (answer, expected) in answers.chunks_exact(8).zip(&expected) {
            assert_eq!(tsarovima::Answer::read(answer.try_into().unwrap()), *expected);
        }
        assert_eq!(listing[..shown.len()], shown);
    }
}
