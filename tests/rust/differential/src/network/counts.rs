//! What the network brought, and had to bring.

use super::announced::{Announced, EDGES};
use crate::pair::{expect, Verdict};
use crate::waits::Silence;
use rules::receiver::Limits;
use std::cmp::Ordering;

/// What has to come up; `LEAST` says how often, in the same order.
#[derive(Clone, Copy)]
pub enum Met {
    Arrived,
    ArrivedByBam,
    ArrivedAtAnEdge,
    FourOpen,
    NothingDue,
    OutlivedByOne,
    RanRound,
    ArrivedInSpite,
    Lost,
    DroppedToReceiver,
    DroppedToSender,
    SilentRts,
    SilentBroadcast,
    SilentSession,
    FirstWaitSecondShorter,
    FirstWaitSecondLonger,
    SecondWaitSecondShorter,
    SecondWaitSecondLonger,
    OutlivedSecondLimit,
    OutlivedFirstLimit,
    AbortedByResponder,
    AbortedByOriginator,
    NotAcknowledged,
    EightOpen,
    OutOfSequence,
    EndTooEarly,
    Asked,
    TooLate,
    TooLateToSender,
    TakenByNode,
    ReplyTakenByNode,
    ThirdToNode,
    NodeToThird,
    DroppedSegment,
    DroppedLast,
    AskedForSegments,
    NoneLost,
    FewLost,
    FiveLost,
    ManyLost,
    SpentBySegments,
    SpentBySix,
    BroadcastUnhurt,
    BroadcastOutOfSequence,
    BroadcastCut,
    TooLateForBroadcast,
}

const LEAST: [(&str, u64); 46] = [
    ("arrivals", 10_000),
    ("arrivals by BAM", 3_000),
    ("arrivals of a length at an edge", 3_000),
    ("announcements that made four open", 1_000),
    ("frames asked for with nothing due", 1_000),
    ("readings just before a silence", 1_000),
    ("clocks that ran round", 100),
    ("arrivals in spite of losses", 500),
    ("losses", 500),
    ("frames lost to the receiver", 500),
    ("frames lost to the sender", 500),
    ("RTS transfers silent", 200),
    ("broadcasts silent", 200),
    ("sessions silent", 200),
    ("sessions silent in the first wait, the second limit shorter", 50),
    ("sessions silent in the first wait, the second limit longer", 50),
    ("sessions silent in the second wait, the second limit shorter", 50),
    ("sessions silent in the second wait, the second limit longer", 50),
    ("sessions in the first wait that outlived the second limit", 50),
    ("sessions in the second wait that outlived the first limit", 50),
    ("Aborts by the responder", 200),
    ("Aborts by the originator", 200),
    ("arrivals not acknowledged", 50),
    ("announcements to eight open sessions", 20),
    ("segments of broadcasts out of sequence", 200),
    ("ends of broadcasts too early", 50),
    ("requests", 200),
    ("frames too late for their session", 500),
    ("replies too late for their transfer", 50),
    ("frames taken by a node", 10_000),
    ("replies taken by a node", 5_000),
    ("messages of a third to the sending node", 500),
    ("messages of the receiving node to a third", 500),
    ("segments alone lost", 10_000),
    ("last segments of a message lost before any request", 500),
    ("requests where segments alone were lost", 2_000),
    ("arrivals by RTS with no segment lost", 500),
    ("arrivals by RTS with one to five segments lost", 500),
    ("arrivals by RTS with five segments lost", 50),
    ("arrivals by RTS with six segments lost or more", 200),
    ("ends by requests spent where segments alone were lost", 200),
    ("ends by requests spent with six segments lost", 10),
    ("broadcasts with no segment lost", 500),
    ("broadcasts ended by 19 where segments alone were lost", 200),
    ("broadcasts ended by 21 where segments alone were lost", 50),
    ("frames too late for such a broadcast", 500),
];

pub struct Counts([u64; LEAST.len()]);

impl Default for Counts {
    fn default() -> Counts {
        Counts([0; LEAST.len()])
    }
}

impl Counts {
    pub fn add(&mut self, met: Met) {
        self.0[met as usize] += 1;
    }

    /// A session ended at this reading. By the shorter limit it counts only where the longer one had not run out too.
    pub fn silent(&mut self, silence: Silence, limits: Limits, reading: u32) {
        self.add(Met::SilentSession);
        let Limits { first, second } = limits;
        let passed = silence.passed(reading);
        match (silence.is_after_cts, second.cmp(&first)) {
            (true, Ordering::Less) => self.add(Met::FirstWaitSecondShorter),
            (true, Ordering::Greater) if passed < second => self.add(Met::FirstWaitSecondLonger),
            (false, Ordering::Less) if passed < first => self.add(Met::SecondWaitSecondShorter),
            (false, Ordering::Greater) => self.add(Met::SecondWaitSecondLonger),
            _ => {}
        }
    }

    /// A session stayed open at this reading, also where the other limit had run out.
    pub fn outlived(&mut self, silence: Silence, limits: Limits, reading: u32) {
        let passed = silence.passed(reading);
        if silence.is_after_cts && passed >= limits.second {
            self.add(Met::OutlivedSecondLimit);
        }
        if !silence.is_after_cts && passed >= limits.first {
            self.add(Met::OutlivedFirstLimit);
        }
    }

    /// Nothing was lost.
    pub fn arrived(&mut self, a: &Announced) -> Verdict<()> {
        let length = a.message.len();
        expect(a.arrived && a.ended_well, || format!("a message of {length} bytes did not arrive"))?;
        self.add(Met::Arrived);
        if a.is_broadcast() {
            self.add(Met::ArrivedByBam);
        }
        if EDGES.contains(&length) {
            self.add(Met::ArrivedAtAnEdge);
        }
        Ok(())
    }

    /// Any frames were lost: it may have arrived or not.
    pub fn in_spite_of_losses(&mut self, a: &Announced) {
        self.add(if a.arrived { Met::ArrivedInSpite } else { Met::Lost });
        if a.arrived && !a.ended_well {
            self.add(Met::NotAcknowledged);
        }
    }

    /// Segments alone were lost. By RTS it has arrived, or the receiver has asked five times and a segment was lost for every request and
    /// for the end; by BAM it has arrived where none was lost, and else ended by 19 or 21.
    pub fn with_segments_lost(&mut self, a: &Announced) -> Verdict<()> {
        let Announced { lost, arrived, ended_well, requests, ended_by, .. } = *a;
        let told = || {
            format!("{lost} segments lost, {requests} requests: arrived {arrived}, well {ended_well}, by {ended_by:?}")
        };
        let is_right = match ended_by {
            None => arrived && ended_well && (lost == 0 || !a.is_broadcast()) && requests <= lost,
            Some(21) if !a.is_broadcast() => !arrived && !ended_well && requests == 5 && lost >= 6,
            Some(19 | 21) => !arrived && a.is_broadcast() && lost > 0,
            Some(_) => false,
        };
        expect(is_right, told)?;
        match (a.is_broadcast(), ended_by, lost) {
            (true, None, _) => self.add(Met::BroadcastUnhurt),
            (true, Some(19), _) => self.add(Met::BroadcastOutOfSequence),
            (true, _, _) => self.add(Met::BroadcastCut),
            (false, None, 0) => self.add(Met::NoneLost),
            (false, None, 1..=5) => self.add(Met::FewLost),
            (false, None, _) => self.add(Met::ManyLost),
            (false, Some(_), _) => self.add(Met::SpentBySegments),
        }
        if !a.is_broadcast() && lost == 5 {
            self.add(Met::FiveLost);
        }
        if !a.is_broadcast() && lost == 6 && ended_by.is_some() {
            self.add(Met::SpentBySix);
        }
        Ok(())
    }

    fn of(&self, met: Met) -> u64 {
        self.0[met as usize]
    }

    pub fn too_few(&self) -> Vec<String> {
        let told = |((name, least), count): (&(&str, u64), u64)| format!("{name}: {count} of {least}");
        LEAST.iter().zip(self.0).filter(|((_, least), count)| count < least).map(told).collect()
    }

    pub fn line(&self) -> String {
        let [arrived, in_spite] = [Met::Arrived, Met::ArrivedInSpite].map(|met| self.of(met));
        let lost = self.of(Met::DroppedToReceiver) + self.of(Met::DroppedToSender);
        let segments = self.of(Met::DroppedSegment) + self.of(Met::DroppedLast);
        let [asked, spent] = [Met::AskedForSegments, Met::SpentBySegments].map(|met| self.of(met));
        let repaired = self.of(Met::FewLost) + self.of(Met::ManyLost);
        format!(
            "network: {arrived} transfers arrived, {lost} lost frames, {in_spite} messages handed over with losses; {segments} segments \
             lost alone, {asked} requests, {repaired} messages repaired, {spent} given up"
        )
    }
}
