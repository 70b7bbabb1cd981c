//! Streams of jobs and of answers: document 01's formats, one after the other.

use std::io::{self, ErrorKind, Read, Write};

use crate::answer::{Answer, Answers, EMPTY_LISTING};
use crate::record::{Record, MOST_RECORDS, RECORD};

const FORMAT: u32 = 1;
const HEADER: usize = 16;

/// The next job's records, or `None` at the stream's end. A header that
/// document 01 would refuse is an error: where that job ends is not known.
pub fn read_job(input: &mut impl Read) -> io::Result<Option<Vec<Record>>> {
    let mut header = [0; HEADER];
    if !read_or_end(input, &mut header)? {
        return Ok(None);
    }
    let field = |at: usize| {
        u32::from_le_bytes([header[at], header[at + 1], header[at + 2], header[at + 3]])
    };
    let count = field(4) as usize;
    let sound = field(0) == FORMAT
        && count <= MOST_RECORDS
        && field(8) as usize == HEADER
        && field(12) as usize == HEADER + RECORD * count;
    if !sound {
        return Err(io::Error::new(ErrorKind::InvalidData, "not a job's header"));
    }
    let mut bytes = vec![0; RECORD * count];
    input.read_exact(&mut bytes)?;
    let records = bytes
        .chunks_exact(RECORD)
        .map(|r| Record::from_bytes([r[0], r[1], r[2], r[3], r[4], r[5], r[6], r[7]]));
    Ok(Some(records.collect()))
}

pub fn write_job(output: &mut impl Write, records: &[Record]) -> io::Result<()> {
    let length = HEADER + RECORD * records.len();
    let mut bytes = Vec::with_capacity(length);
    for field in [FORMAT, records.len() as u32, HEADER as u32, length as u32] {
        bytes.extend(field.to_le_bytes());
    }
    for record in records {
        bytes.extend(record.bytes());
    }
    output.write_all(&bytes)
}

/// The answers to a job of `count` records, and its listing.
pub fn read_answers(input: &mut impl Read, count: usize) -> io::Result<Answers> {
    let mut bytes = vec![0; 8 * count];
    input.read_exact(&mut bytes)?;
    let answers = bytes.chunks_exact(8).map(|a| {
        Answer::new(
            u16::from_le_bytes([a[0], a[1]]),
            u16::from_le_bytes([a[2], a[3]]),
            u32::from_le_bytes([a[4], a[5], a[6], a[7]]),
        )
    });
    let answers = answers.collect();
    let mut listing = read_numbers(input, EMPTY_LISTING.len())?;
    let (nodes, types) = (listing[0] as usize, listing[1] as usize);
    listing.extend(read_numbers(input, 3 * types + 2 * nodes)?);
    Ok(Answers { answers, listing })
}

pub fn write_answers(output: &mut impl Write, answers: &Answers) -> io::Result<()> {
    let mut bytes = Vec::with_capacity(8 * answers.answers.len() + 2 * answers.listing.len());
    for answer in &answers.answers {
        bytes.extend(answer.bytes());
    }
    for number in &answers.listing {
        bytes.extend(number.to_le_bytes());
    }
    output.write_all(&bytes)
}

fn read_numbers(input: &mut impl Read, count: usize) -> io::Result<Vec<u16>> {
    let mut bytes = vec![0; 2 * count];
    input.read_exact(&mut bytes)?;
    let numbers = bytes
        .chunks_exact(2)
        .map(|n| u16::from_le_bytes([n[0], n[1]]));
    Ok(numbers.collect())
}

/// Fills the buffer, or says that the input ended before its first byte.
fn read_or_end(input: &mut impl Read, buffer: &mut [u8]) -> io::Result<bool> {
    let mut filled = 0;
    while filled < buffer.len() {
        match input.read(&mut buffer[filled..]) {
            Ok(0) if filled == 0 => return Ok(false),
            Ok(0) => return Err(ErrorKind::UnexpectedEof.into()),
            Ok(more) => filled += more,
            Err(e) if e.kind() == ErrorKind::Interrupted => {}
            Err(e) => return Err(e),
        }
    }
    Ok(true)
}
