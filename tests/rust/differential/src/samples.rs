//! The trace samples through the calls: every frame sent against NAME.sent, every line against NAME.lines. Both were made by an
//! implementation written apart from ours; the samples of traces/ by hand, and they have lines only.

use crate::pair::{expect, Difference, Pair, Verdict};
use crate::random::Random;
use rules::calls::Code;
use rules::program::{read_record, Record, Told, OPENING};
use rules::receiver::Limits;
use std::fs;
use std::path::{Path, PathBuf};

/// Where traces stand, from the root of the repository.
const FOLDERS: [&str; 2] = ["tests/samples", "traces"];
/// How many samples have a list of sent frames.
const WITH_SENT: usize = 16;

#[derive(Default)]
pub struct Met {
    pub traces: usize,
    pub sent: u64,
    pub lines: u64,
    pub with_sent: usize,
}

struct Run<'a> {
    pair: &'a mut Pair,
    told: Told,
}

impl Run<'_> {
    fn trace(&mut self, input: &[u8]) -> Verdict<()> {
        let (own, limit, reading) = OPENING;
        let opened = self.pair.open(own, Limits::both(limit), reading)?;
        expect(opened == 0, || "the program's opening was refused".into())?;
        let mut at = 0;
        while at < input.len() {
            let Some((record, behind)) = read_record(input, at) else {
                self.told.line(format_args!("bad record at {at}"));
                return Ok(());
            };
            match record {
                Record::Reading(reading) => self.reading(reading)?,
                Record::Frame(id, bytes) => self.frame(id, &bytes)?,
            }
            self.told.records += 1;
            at = behind;
        }
        let records = self.told.records;
        self.told.line(format_args!("end {records}"));
        Ok(())
    }

    fn reading(&mut self, reading: u32) -> Verdict<()> {
        let (_, endings) = self.pair.reading(reading)?;
        for ending in endings.iter().filter(|ending| ending.code() != 0) {
            self.told.answer(&ending.0, &[]);
        }
        Ok(())
    }

    fn frame(&mut self, id: u32, bytes: &[u8]) -> Verdict<()> {
        let given = self.pair.frame(id, bytes)?;
        if given.is(Code::Groups) {
            for i in 0..self.pair.groups(bytes)? {
                self.told.group(id, &self.pair.group(i));
            }
        } else {
            let length = if given.is(Code::HandedOver) { given.word(11) as usize } else { 0 };
            self.told.answer(&given.0, self.pair.out(length));
        }
        Ok(())
    }
}

fn root() -> PathBuf {
    Path::new(env!("CARGO_MANIFEST_DIR")).join("../../..")
}

fn read(path: &Path) -> Verdict<Vec<u8>> {
    fs::read(path).map_err(|fault| Difference(format!("{}: {fault}", path.display())))
}

/// Every trace of the repository, in order of name.
fn traces() -> Verdict<Vec<PathBuf>> {
    let mut traces = Vec::new();
    for folder in FOLDERS {
        let path = root().join(folder);
        let entries = fs::read_dir(&path).map_err(|fault| Difference(format!("{}: {fault}", path.display())))?;
        traces.extend(
            entries.flatten().map(|entry| entry.path()).filter(|path| path.extension() == Some("trace".as_ref())),
        );
    }
    traces.sort();
    Ok(traces)
}

pub fn run(pair: &mut Pair, random: &mut Random) -> Verdict<Met> {
    let mut met = Met::default();
    for trace in traces()? {
        // Bytes of other messages stand in the store, also at the first.
        pair.fill_store(random);
        let mut run = Run { pair, told: Told::default() };
        run.trace(&read(&trace)?)?;
        let Told { lines, sent, .. } = run.told;
        same_text(&trace.with_extension("lines"), &lines)?;
        met.traces += 1;
        met.lines += lines.lines().count() as u64;
        let listed = trace.with_extension("sent");
        if listed.exists() {
            same_text(&listed, &sent)?;
            met.sent += sent.lines().count() as u64;
            met.with_sent += 1;
        }
    }
    expect(met.with_sent == WITH_SENT, || {
        format!("{} samples have a list of sent frames, not {WITH_SENT}", met.with_sent)
    })?;
    Ok(met)
}

fn same_text(path: &Path, ours: &str) -> Verdict<()> {
    let theirs = read(path)?;
    if theirs == ours.as_bytes() {
        return Ok(());
    }
    let theirs = String::from_utf8_lossy(&theirs);
    let at = ours.lines().zip(theirs.lines()).take_while(|(a, b)| a == b).count();
    let (a, b) = (ours.lines().nth(at), theirs.lines().nth(at));
    Err(Difference(format!("{}: line {}: {a:?}, expected {b:?}", path.display(), at + 1)))
}
