//! A watch, written by hand: the same calls over the same rows, given the items of a recording, too.
#![allow(dead_code)]

use crate::closing::Bound;
use crate::growth::Store;
use crate::reader::{Cursor, Kind, Network};

const MOST: u64 = 1_000_000_000_000;

#[derive(Clone, Copy, PartialEq, Eq)]
pub enum Verdict {
    Pass,
    Fail,
    Inconclusive,
}

/// The verdict, the number of the cause, the items and the tick.
pub struct Report(pub Verdict, pub u8, pub u64, pub u64);

pub enum Reply {
    Going,
    Ended(Report),
    /// by the number of the rule
    Refused(u32),
}

#[derive(Clone, Copy)]
pub enum Item {
    Wait(u32),
    See(u32),
}

/// A recording read record by record.
pub struct Recording<'a> {
    pub bytes: &'a [u8],
    pub at: usize,
}

impl Recording<'_> {
    /// The next item; none at the end, and an error at a fault.
    fn next(&mut self) -> Result<Option<Item>, ()> {
        let kind = *self.bytes.get(self.at).ok_or(())?;
        if kind == 2 {
            return if self.at + 1 == self.bytes.len() { Ok(None) } else { Err(()) };
        }
        let mut cursor = Cursor { bytes: self.bytes, at: self.at + 1 };
        let v = cursor.number().map_err(|_| ())?;
        self.at = cursor.at;
        match kind {
            0 => Ok(Some(Item::Wait(v))),
            1 => Ok(Some(Item::See(v))),
            _ => Err(()),
        }
    }
}

pub struct Watch {
    entries: usize,
    estimate: usize,
    tick: u64,
    since: u64,
    items: u64,
}

fn has_rows<T>(network: &Network, bounds: &[T], locations: &[u8], entries: usize) -> bool {
    let side = usize::from(network.clocks) + 2;
    (1..=256).contains(&entries) && side * side * (entries + 1) <= bounds.len() && 8 * entries <= locations.len()
}

impl Watch {
    pub fn open<T: Bound>(network: &Network, bounds: &mut [T], locations: &mut [u8], entries: usize) -> Option<Watch> {
        if !has_rows(network, bounds, locations, entries) {
            return None;
        }
        Store { bounds, locations, network }.begin();
        Some(Watch { entries, estimate: 1, tick: 0, since: 0, items: 0 })
    }

    fn end(&self, verdict: Verdict, cause: u8, tick: u64) -> Reply {
        Reply::Ended(Report(verdict, cause, self.items + 1, tick))
    }

    pub fn wait<T: Bound>(&mut self, network: &Network, bounds: &mut [T], locations: &mut [u8], ticks: u32) -> Reply {
        if !has_rows(network, bounds, locations, self.entries) {
            return Reply::Refused(8);
        }
        if self.tick + u64::from(ticks) > MOST || self.items >= MOST {
            return Reply::Refused(10);
        }
        let mut store = Store { bounds, locations, network };
        let since = self.since + u64::from(ticks);
        let (w, first, entries) = (since as i64, self.estimate, self.entries);
        let Some(used) = store.grow(false, w, first, entries) else {
            return self.end(Verdict::Inconclusive, 3, self.tick);
        };
        let latest = store.latest(first, used);
        if latest < w {
            let Some(used) = store.grow(true, latest + 1, first, entries) else {
                return self.end(Verdict::Inconclusive, 3, self.tick);
            };
            let fails = store.latest(first, used) > latest;
            let tick = self.tick - self.since + (latest + 1) as u64;
            return self.end(if fails { Verdict::Fail } else { Verdict::Inconclusive }, 2, tick);
        }
        self.tick += u64::from(ticks);
        self.since = since;
        self.items += 1;
        Reply::Going
    }

    pub fn see<T: Bound>(&mut self, network: &Network, bounds: &mut [T], locations: &mut [u8], channel: u32) -> Reply {
        if !has_rows(network, bounds, locations, self.entries) {
            return Reply::Refused(8);
        }
        let kind = match network.channels[..network.width].get(channel as usize) {
            Some(kind) if *kind != Kind::Hidden => *kind,
            _ => return Reply::Refused(9),
        };
        if self.items >= MOST {
            return Reply::Refused(10);
        }
        let mut store = Store { bounds, locations, network };
        match store.see(channel as u8, self.since as i64, self.estimate, self.entries) {
            None => self.end(Verdict::Inconclusive, 3, self.tick),
            Some(0) => self.end(if kind == Kind::Output { Verdict::Fail } else { Verdict::Inconclusive }, 1, self.tick),
            Some(count) => {
                self.estimate = count;
                self.since = 0;
                self.items += 1;
                Reply::Going
            }
        }
    }

    pub fn close(self) -> Report {
        Report(Verdict::Pass, 0, self.items, self.tick)
    }

    pub fn follow<T: Bound>(mut self, network: &Network, bounds: &mut [T], locations: &mut [u8], mut source: Recording) -> Report {
        loop {
            let reply = match source.next() {
                Ok(Some(Item::Wait(ticks))) => self.wait(network, bounds, locations, ticks),
                Ok(Some(Item::See(channel))) => self.see(network, bounds, locations, channel),
                Ok(None) => return self.close(),
                Err(()) => return Report(Verdict::Inconclusive, 4, self.items, self.tick),
            };
            match reply {
                Reply::Going => {}
                Reply::Ended(report) => return report,
                Reply::Refused(_) => return Report(Verdict::Inconclusive, 4, self.items, self.tick),
            }
        }
    }
}
