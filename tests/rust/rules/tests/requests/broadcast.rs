//! "BAM stays as it is": in sequence, no request, and the bytes that are an RTS's mean nothing there.

use crate::{hex, FORMER, OWN, SLOT};
use rules::calls::{self, ANSWER_BYTES, RECORD_BYTES};
use rules::receiver::STORE_BYTES;

const CONTROL: u32 = 0x1C4D_FF80;
const DATA: u32 = 0x1C4E_FF80;
const BAM: &str = "34 82 00 00 03 00 00 FF 00 CA FE 00";
const EOMS: &str = "32 82 00 00 03 00 00 00 00 CA FE 00";
/// Ended without Abort, by 19 and by 21; the byte of spent requests is 0.
const ENDED_19: &str = "13 07 80 FF 03 02 00 CA FE 00 00";
const ENDED_21: &str = "15 07 80 FF 03 02 00 CA FE 00 00";

/// 130 bytes in three segments, of which this many are in.
#[derive(Clone)]
struct Bench {
    record: Vec<u8>,
    store: Vec<u8>,
}

impl Bench {
    fn with(taken: u8) -> Bench {
        let mut bench = Bench { record: vec![0; RECORD_BYTES], store: vec![FORMER; STORE_BYTES] };
        assert_eq!(calls::open(&mut bench.record, OWN, 1_250, 750, 0), 0);
        assert_eq!(bench.frame(CONTROL, &hex(BAM))[..2], [0, 2]);
        for n in 1..=taken {
            assert_eq!(bench.segment(n)[..2], [0, 3]);
        }
        bench
    }

    fn frame(&mut self, id: u32, bytes: &[u8]) -> [u8; ANSWER_BYTES] {
        let mut answer = [0x77; ANSWER_BYTES];
        calls::frame(&mut self.record, id, bytes, &mut self.store, &mut answer);
        answer
    }

    fn segment(&mut self, n: u8) -> [u8; ANSWER_BYTES] {
        self.frame(DATA, &[vec![0x30, n, 0, 0], vec![n; 60]].concat())
    }

    fn is_over(&self) -> bool {
        self.record[SLOT..].iter().all(|&byte| byte == 0)
    }
}

fn is_ended(answer: [u8; ANSWER_BYTES], due: &str) {
    assert_eq!(answer[..11], hex(due));
    assert!(answer[11..].iter().all(|&byte| byte == 0));
}

#[test]
fn in_sequence() {
    for taken in 0..=3 {
        for n in 0..=5 {
            let mut bench = Bench::with(taken);
            let answer = bench.segment(n);
            if n <= taken {
                assert_eq!(answer[..2], [18, 9]);
            } else if n == taken + 1 && n <= 3 {
                assert_eq!((&answer[..2], answer[15]), (&[0, 3][..], n));
            } else {
                is_ended(answer, ENDED_19);
                assert!(bench.is_over());
            }
        }
    }
}

#[test]
fn an_end_with_segments_missing_is_21() {
    for taken in 0..3 {
        let mut bench = Bench::with(taken);
        is_ended(bench.frame(CONTROL, &hex(EOMS)), ENDED_21);
        assert!(bench.is_over());
    }
    let mut bench = Bench::with(3);
    assert_eq!(bench.frame(CONTROL, &hex(EOMS))[..2], [0, 5]);
    for place in [1, 4, 8, 9] {
        let mut bench = Bench::with(3);
        let mut status = hex(EOMS);
        status[place] ^= 1;
        is_ended(bench.frame(CONTROL, &status), ENDED_21);
    }
}

/// Last granted, the record of segments, the number missing and the requests: any bytes, and no segment changes them.
#[test]
fn an_rts_bytes_are_free() {
    for byte in [0, 1, 5, 6, 0x7F, 0xFF] {
        let mut bench = Bench::with(0);
        let mut places: Vec<usize> = (SLOT + 22..SLOT + 26).collect();
        places.extend(SLOT + 31..SLOT + 45);
        for &place in &places {
            bench.record[place] = byte;
        }
        let mut answers = [0x77; calls::ANSWERS_BYTES];
        for n in 1..=3 {
            assert_eq!(calls::missing(&bench.record, 128, 255, 3), 4 - usize::from(n));
            assert_eq!(bench.segment(n)[..2], [0, 3]);
            assert_eq!(bench.segment(n)[..2], [18, 9]);
            assert_eq!(calls::reading(&mut bench.record, 5, &bench.store, &mut answers), 0);
            assert!(places.iter().all(|&place| bench.record[place] == byte), "{byte}: {n}");
        }
        assert_eq!(calls::missing(&bench.record, 128, 255, 3), 0);
        assert_eq!(bench.frame(CONTROL, &hex(EOMS))[..2], [0, 5]);
        assert!(bench.is_over());
    }
}
