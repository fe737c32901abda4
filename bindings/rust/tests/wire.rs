//! Requests that come in parts.
use heronspan::{Reader, Refusal, Request, Schedule};
use std::io::{self, Read};

const R: [u8; 17] = [1, 0, 4, 0, 11, 67, 108, 2, 0, 4, 0, 11, 68, 3, 255, 0, 0];

fn monthly() -> Vec<u8> {
    let mut bytes = R[..14].to_vec();
    bytes.extend([3, 0, 3, b'M', 0, 1, 11, 0, 8, 0, 11, 67, 110, 0, 11, 67, 112, 255, 0, 0]);
    bytes
}

fn whole(bytes: &[u8]) -> Result<Schedule, Refusal> {
    Schedule::from_bytes(bytes, Request::MOST)
}

/// A source that hands out so many bytes at a time.
struct Cut<'a>(&'a [u8], usize);

impl Read for Cut<'_> {
    fn read(&mut self, out: &mut [u8]) -> io::Result<usize> {
        let n = self.1.min(self.0.len()).min(out.len());
        out[..n].copy_from_slice(&self.0[..n]);
        self.0 = &self.0[n..];
        Ok(n)
    }
}

#[test]
fn every_cut_is_the_whole() {
    for bytes in [R.to_vec(), monthly(), R[..16].to_vec(), [&R[..], &[0]].concat(), vec![]] {
        for cut in 0..=bytes.len() {
            let mut reader = Reader::new();
            assert!(reader.feed(&bytes[..cut]).unwrap().is_none());
            assert!(reader.feed(&[]).unwrap().is_none());
            assert!(reader.feed(&bytes[cut..]).unwrap().is_none());
            assert_eq!(reader.finish().and_then(|request| request.build()), whole(&bytes));
            assert_eq!(reader.feed(&R).and_then(|request| request.unwrap().build()), whole(&bytes));
        }
        for size in 1..=bytes.len() + 1 {
            let read = Reader::new().read(&mut Cut(&bytes, size)).unwrap();
            assert_eq!(read.and_then(|request| request.build()), whole(&bytes));
        }
    }
}

#[test]
fn bodies_are_stored_as_fed_and_a_reset_starts_anew() {
    let mut reader = Reader::new();
    reader.feed(&R[..5]).unwrap();
    assert_eq!(reader.buffer()[..3], [0, 11, 0]);
    reader.reset();
    assert_eq!(reader.finish().err(), Some(Refusal::Request));
    reader.reset();
    reader.feed(&R).unwrap();
    assert_eq!(reader.buffer()[..9], [0, 11, 67, 108, 0, 11, 68, 3, 0]);
    assert_eq!(reader.finish().and_then(|request| request.build()), whole(&R));
}
