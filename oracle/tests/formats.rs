//! What is written is read again: records, words, jobs and answers.

use oracle::answer::{Answer, Answers};
use oracle::lists::random::random;
use oracle::record::Record;
use oracle::stream::{read_answers, read_job, write_answers, write_job};
use oracle::words::{from_words, list_in_words};

#[test]
fn words_are_read_as_they_are_written() {
    for list in 0..128 {
        let records = random(3, list);
        assert_eq!(from_words(&list_in_words(&records)), Ok(records));
    }
}

#[test]
fn what_is_no_record_is_told() {
    for part in ["unite", "unit 0", "comp 0", "word", "word -1", "raw 1 2 3"] {
        assert_eq!(from_words(part), Err(part.to_string()));
    }
}

#[test]
fn a_job_has_the_bytes_of_document_01() {
    let records = from_words("unit; case 0 258").expect("a list");
    let mut bytes = vec![];
    write_job(&mut bytes, &records).expect("written");
    let header = [1, 0, 0, 0, 2, 0, 0, 0, 16, 0, 0, 0, 32, 0, 0, 0];
    assert_eq!(bytes[..16], header);
    assert_eq!(
        bytes[16..],
        [2, 0, 0, 0, 0, 0, 0, 0, 8, 0, 0, 0, 2, 1, 0, 0]
    );
}

#[test]
fn streams_are_read_to_their_end() {
    let jobs: Vec<Vec<Record>> = (0..64).map(|list| random(4, list)).collect();
    let mut bytes = vec![];
    for job in &jobs {
        write_job(&mut bytes, job).expect("written");
    }
    let mut rest = &bytes[..];
    for job in &jobs {
        assert_eq!(read_job(&mut rest).expect("read").as_ref(), Some(job));
    }
    assert_eq!(read_job(&mut rest).expect("the end"), None);
    assert!(read_job(&mut &bytes[..20]).is_err());
    assert!(read_job(&mut &bytes[1..]).is_err());
}

#[test]
fn answers_are_read_as_they_are_written() {
    let answers = Answers {
        answers: vec![Answer::new(0, 0x0102, 0x0304_0506), Answer::new(4, 7, 0)],
        listing: vec![1, 1, 4, 7, 0, 0, 0, 0, 0],
    };
    let mut bytes = vec![];
    write_answers(&mut bytes, &answers).expect("written");
    assert_eq!(bytes[..8], [0, 0, 2, 1, 6, 5, 4, 3]);
    assert_eq!(read_answers(&mut &bytes[..], 2).expect("read"), answers);
}
