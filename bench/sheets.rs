//! Sheets for the benchmark, written as docs/FORMATS.md says.

const MARK: u32 = 1_000_000;
const ALONE: u32 = 0;
const INPUT: u32 = 0;
const HIDDEN: u32 = 2;

fn put(sheet: &mut Vec<u8>, mut v: u32) {
    while v >= 128 {
        sheet.push((v % 128) as u8 | 128);
        v /= 128;
    }
    sheet.push(v as u8);
}

/// Every count at its most, every number at its longest.
pub fn largest() -> Vec<u8> {
    let mut s = Vec::new();
    for v in [1, 8, 32] {
        put(&mut s, v);
    }
    for _ in 0..32 {
        put(&mut s, 2);
    }
    put(&mut s, 8);
    for _ in 0..8 {
        put(&mut s, 1);
        put(&mut s, 16);
        for _ in 0..16 {
            for v in [2, 8, 1, 1_000_000, 7, 0, 999_999] {
                put(&mut s, v);
            }
        }
    }
    put(&mut s, 128);
    for i in 0..128 {
        for v in [i % 8, i % 16, 15, 1 + i % 64, 4] {
            put(&mut s, v);
        }
        for v in [8, 0, 1, 2_000_000, 0, 7, 0, 1_999_999, 3, 4, 1, 1_000_000, 1, 2, 0, 16_384] {
            put(&mut s, v);
        }
        put(&mut s, 255);
    }
    s
}

/// The example of docs/FORMATS.md.
pub fn bell() -> Vec<u8> {
    let mut s = vec![1, 1, 2, 0, 1, 2, 0, 1, 0, 1, 2, 0, 1, 1, 0, 5, 4];
    s.extend([0, 0, 0, 1, 0, 0, 0, 0, 0, 4, 0, 0]);
    s.extend([1, 0, 1, 2, 0, 1, 1, 1, 0, 3, 1, 0, 1, 0, 0xbd, 0x84, 0x3d, 0]);
    s
}

/// An edge that waits until each of two clocks reads so many ticks.
#[derive(Clone, Copy)]
struct Edge {
    process: u32,
    from: u32,
    to: u32,
    label: u32,
    reads: [(u32, u32); 2],
}

/// A network with one channel and two processes, whose locations have a limit each.
struct Sheet {
    clocks: u32,
    channel: u32,
    limits: [Vec<(u32, u32)>; 2],
    edges: Vec<Edge>,
}

impl Sheet {
    fn bytes(&self) -> Vec<u8> {
        let mut s = Vec::new();
        for v in [1, self.clocks, 1, self.channel, 2] {
            put(&mut s, v);
        }
        for (side, limits) in self.limits.iter().enumerate() {
            put(&mut s, side as u32);
            put(&mut s, limits.len() as u32);
            for (clock, ticks) in limits {
                for v in [1, *clock, 0, *ticks] {
                    put(&mut s, v);
                }
            }
        }
        put(&mut s, self.edges.len() as u32);
        for e in &self.edges {
            for v in [e.process, e.from, e.to, e.label, 2] {
                put(&mut s, v);
            }
            for (clock, ticks) in e.reads {
                for v in [0, clock, 0, MARK - ticks] {
                    put(&mut s, v);
                }
            }
            put(&mut s, 0);
        }
        s
    }
}

/// Two chains of `long` locations, each gone through by edges alone or by both at once over the hidden channel: the edge to
/// location l waits for tick l, so that a growth to w ticks reaches w + 1 locations of each.
fn chains(clocks: u32, long: u32) -> Sheet {
    let limits = |shift: u32| (0..long).map(|l| ((l + shift) % clocks + 1, 1_000_000)).collect();
    let mut edges = Vec::new();
    for l in 1..long {
        for process in 0..2 {
            let reads = [((l + process) % clocks + 1, l), ((l + 3) % clocks + 1, l - 1)];
            let e = Edge { process, from: l - 1, to: l, label: ALONE, reads };
            edges.extend([e, Edge { label: 1 + process, ..e }]);
        }
    }
    Sheet { clocks, channel: HIDDEN, limits: [limits(0), limits(5)], edges }
}

/// A growth of eight clocks that needs all of 256 places: the start, and each pair of locations but the two last, of which the
/// one must be left by tick 20 and the other is not entered before tick 30.
pub fn full() -> Vec<u8> {
    let mut s = chains(8, 16);
    s.limits[0][15].1 = 20;
    for e in &mut s.edges {
        if e.process == 1 && e.to == 15 {
            e.reads[0].1 = 30;
        }
    }
    s.bytes()
}

/// What the edges beside those of the chains do.
#[derive(Clone, Copy)]
pub enum Extra {
    /// leave a location that is not entered
    Idle,
    /// lead alone to where they come from
    Alone,
    /// lead there in pairs
    Pairs,
}

/// Two chains of three locations and eight clocks, with so many edges.
pub fn with_edges(extra: Extra, count: usize) -> Vec<u8> {
    let mut s = chains(8, 3);
    for limits in &mut s.limits {
        limits.push((1, 1_000_000));
    }
    for i in s.edges.len() as u32..count as u32 {
        let process = i % 2;
        let (at, label) = match extra {
            Extra::Idle => (3, ALONE),
            Extra::Alone => (i / 2 % 3, ALONE),
            Extra::Pairs => (i / 2 % 3, 1 + process),
        };
        let reads = [(i % 8 + 1, 2 + i % 5), ((i + 3) % 8 + 1, 1 + i % 7)];
        s.edges.push(Edge { process, from: at, to: at, label, reads });
    }
    s.bytes()
}

/// Two chains of ten locations, with so many clocks: a growth has 100 entries behind the start.
pub fn with_clocks(clocks: u32) -> Vec<u8> {
    chains(clocks, 10).bytes()
}

/// Two chains of ten locations, each entered alone, and an input that is seen at each pair of them.
pub fn seen(clocks: u32) -> Vec<u8> {
    let mut s = chains(clocks, 10);
    s.channel = INPUT;
    s.edges.retain(|e| e.label == ALONE);
    for at in 0..10 {
        for process in 0..2 {
            let reads = [(at % clocks + 1, at), ((at + 1) % clocks + 1, at)];
            s.edges.push(Edge { process, from: at, to: at, label: 1 + process, reads });
        }
    }
    s.bytes()
}

/// Bell rung so many times, as a recording: seen, 4 ticks, seen again, 7 ticks.
pub fn rings(times: usize) -> Vec<u8> {
    let mut recording = [1, 0, 0, 4, 1, 1, 0, 7].repeat(times);
    recording.push(2);
    recording
}

/// So many waits of one tick, as a recording.
pub fn idle(waits: usize) -> Vec<u8> {
    let mut recording = [0, 1].repeat(waits);
    recording.push(2);
    recording
}
