//! The rules over the traces of tests/samples: every line and every frame sent as an implementation written apart from ours has them. And
//! over 01's whole case, whose last frame is taken since E6.

use rules::calls::{self, Code, ANSWERS_BYTES, ANSWER_BYTES, GROUPS_WORDS, GROUP_WORDS, RECORD_BYTES};
use rules::program::{read_record, Record, Told, OPENING};
use rules::receiver::{SLOT_BYTES, STORE_BYTES};
use std::fs;
use std::path::{Path, PathBuf};

struct Run {
    record: [u8; RECORD_BYTES],
    store: Vec<u8>,
    told: Told,
}

impl Run {
    fn over(input: &[u8]) -> Told {
        let mut run = Run { record: [0; RECORD_BYTES], store: vec![0xEE; STORE_BYTES], told: Told::default() };
        let (own, limit, reading) = OPENING;
        assert_eq!(calls::open(&mut run.record, own, limit, limit, reading), 0);
        let mut at = 0;
        while at < input.len() {
            let Some((record, behind)) = read_record(input, at) else {
                run.told.line(format_args!("bad record at {at}"));
                return run.told;
            };
            match record {
                Record::Reading(reading) => run.reading(reading),
                Record::Frame(id, bytes) => run.frame(id, &bytes),
            }
            run.told.records += 1;
            at = behind;
        }
        let records = run.told.records;
        run.told.line(format_args!("end {records}"));
        run.told
    }

    fn reading(&mut self, reading: u32) {
        let mut answers = [0x77; ANSWERS_BYTES];
        assert_eq!(calls::reading(&mut self.record, reading, &self.store, &mut answers), 0);
        for answer in answers.chunks_exact(ANSWER_BYTES).filter(|answer| answer[1] != 0) {
            self.told.answer(answer.try_into().expect("36 bytes each"), &[]);
        }
    }

    fn frame(&mut self, id: u32, bytes: &[u8]) {
        let mut answer = [0x77; ANSWER_BYTES];
        calls::frame(&mut self.record, id, bytes, &mut self.store, &mut answer);
        if answer[1] == Code::Groups as u8 {
            let mut words = [0; GROUPS_WORDS];
            let count = calls::groups(bytes, &mut words);
            for group in words.chunks_exact(GROUP_WORDS).take(count) {
                self.told.group(id, &calls::read_group(group));
            }
        } else {
            let mut out = [0; SLOT_BYTES];
            let length = calls::message(&answer, &self.store, &mut out);
            self.told.answer(&answer, &out[..length]);
        }
    }
}

/// The first line that differs.
fn same(path: &Path, ours: &str) {
    let theirs = fs::read_to_string(path).expect("beside its trace");
    for (at, (ours, theirs)) in ours.lines().zip(theirs.lines()).enumerate() {
        assert_eq!(ours, theirs, "{}, line {}", path.display(), at + 1);
    }
    assert_eq!(ours, theirs, "{}", path.display());
}

#[test]
fn lines_and_sent_frames() {
    let folder = Path::new(env!("CARGO_MANIFEST_DIR")).join("../../samples");
    let paths = fs::read_dir(folder).expect("tests/samples").flatten().map(|entry| entry.path());
    let traces: Vec<PathBuf> = paths.filter(|path| path.extension() == Some("trace".as_ref())).collect();
    assert_eq!(traces.len(), 16);
    for trace in traces {
        let told = Run::over(&fs::read(&trace).expect("a trace"));
        same(&trace.with_extension("lines"), &told.lines);
        same(&trace.with_extension("sent"), &told.sent);
    }
}

/// In groups of seven bits, the low one first.
fn number(mut number: u32) -> Vec<u8> {
    let mut bytes = vec![];
    while number >= 0x80 {
        bytes.push(number as u8 | 0x80);
        number >>= 7;
    }
    bytes.push(number as u8);
    bytes
}

fn frame(id: u32, bytes: &[u8]) -> Vec<u8> {
    [number(1), number(id), number(bytes.len() as u32), bytes.to_vec()].concat()
}

#[test]
fn whole_case() {
    let trace = [
        [number(0), number(0)].concat(),
        frame(0x1825_2180, &[0x40, 0xEA, 0x00, 0x03, 0xCA, 0xFE, 0x00]),
        frame(0x1C4D_2180, &[0x30, 61, 0, 0, 2, 0, 0, 255, 0, 0xCA, 0xFE, 0]),
        frame(0x1C4E_2180, &[0x30, 0x02, 0x00, 0x00, 0x11]),
    ];
    let told = Run::over(&trace.concat());
    assert_eq!(told.lines, "pg 128 33 59904 3\nsend cts 128 3 1 2\ntook 128 3 2\nend 4\n");
    assert_eq!(told.sent, "2 1C4D8021 31ffffff0100000200cafe00\n");
}
