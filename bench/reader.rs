//! A plain hand-written reader of sheets, to compare the proved one with: the same formats, the
//! same tables, the same refusals. Numbers of one byte, the most, have a way of their own.
#![allow(dead_code)]

#[derive(Clone, Copy, PartialEq, Eq, Debug)]
pub enum Fault {
    Ends(usize),
    Form(usize),
    Value(usize),
    SelfComparison(usize),
    AgainstSide(usize),
    LeftOver(usize),
}

#[derive(Clone, Copy, PartialEq, Eq)]
pub enum Kind {
    Input,
    Output,
    Hidden,
}

#[derive(Clone, Copy, PartialEq, Eq)]
pub enum Side {
    Environment,
    System,
}

#[derive(Clone, Copy)]
pub enum Label {
    Alone,
    Send(u8),
    Receive(u8),
}

#[derive(Clone, Copy, Default)]
pub struct Limit {
    pub clock: u8,
    pub strict: bool,
    pub ticks: u32,
}

#[derive(Clone, Copy, Default)]
pub struct Location {
    pub count: usize,
    pub limits: [Limit; 2],
}

#[derive(Clone, Copy)]
pub struct Process {
    pub side: Side,
    pub count: usize,
    pub locations: [Location; 16],
}

#[derive(Clone, Copy, Default)]
pub struct Condition {
    pub left: u8,
    pub right: u8,
    pub strict: bool,
    pub ticks: i32,
}

#[derive(Clone, Copy)]
pub struct Edge {
    pub process: u8,
    pub from: u8,
    pub to: u8,
    pub label: Label,
    pub count: usize,
    pub conditions: [Condition; 4],
    pub resets: u8,
}

pub struct Network {
    pub clocks: u8,
    pub width: usize,
    pub channels: [Kind; 32],
    pub count: usize,
    pub processes: [Process; 8],
    pub edge_count: usize,
    pub edges: [Edge; 128],
    /// by process and location, the numbers of the edges that leave it, one bit each
    pub leaving: [[u128; 16]; 8],
}

impl Network {
    pub fn smallest() -> Network {
        let location = Location::default();
        let process = Process { side: Side::Environment, count: 1, locations: [location; 16] };
        let edge = Edge { process: 0, from: 0, to: 0, label: Label::Alone, count: 0, conditions: [Condition::default(); 4], resets: 0 };
        Network { clocks: 0, width: 0, channels: [Kind::Hidden; 32], count: 1, processes: [process; 8], edge_count: 0, edges: [edge; 128], leaving: [[0; 16]; 8] }
    }
}

pub struct Cursor<'a> {
    pub bytes: &'a [u8],
    pub at: usize,
}

impl Cursor<'_> {
    #[inline]
    pub fn number(&mut self) -> Result<u32, Fault> {
        match self.bytes.get(self.at) {
            Some(&b) if b < 0x80 => {
                self.at += 1;
                Ok(u32::from(b))
            }
            _ => self.long_number(),
        }
    }

    fn long_number(&mut self) -> Result<u32, Fault> {
        let start = self.at;
        let mut value = 0u64;
        for i in 0..5 {
            let Some(&b) = self.bytes.get(start + i) else {
                return Err(Fault::Ends(self.bytes.len()));
            };
            value |= u64::from(b & 0x7f) << (7 * i);
            if b < 0x80 {
                if (i > 0 && b == 0) || value > u64::from(u32::MAX) {
                    return Err(Fault::Form(start));
                }
                self.at = start + i + 1;
                return Ok(value as u32);
            }
        }
        Err(Fault::Form(start))
    }

    fn field(&mut self, low: u32, high: u32) -> Result<u32, Fault> {
        let start = self.at;
        let v = self.number()?;
        if v < low || v > high {
            return Err(Fault::Value(start));
        }
        Ok(v)
    }

    fn limit(&mut self, clocks: u32) -> Result<Limit, Fault> {
        let clock = self.field(1, clocks)? as u8;
        let mark = self.field(0, 1)?;
        let ticks = self.field(mark, 1_000_000)?;
        Ok(Limit { clock, strict: mark == 1, ticks })
    }

    fn process(&mut self, clocks: u32) -> Result<Process, Fault> {
        let side = if self.field(0, 1)? == 0 { Side::Environment } else { Side::System };
        let count = self.field(1, 16)? as usize;
        let mut locations = [Location::default(); 16];
        for location in &mut locations[..count] {
            location.count = self.field(0, 2)? as usize;
            for limit in &mut location.limits[..location.count] {
                *limit = self.limit(clocks)?;
            }
        }
        Ok(Process { side, count, locations })
    }

    fn condition(&mut self, clocks: u32) -> Result<Condition, Fault> {
        let start = self.at;
        let left = self.field(0, clocks)?;
        let right = self.field(0, clocks)?;
        if left == right {
            return Err(Fault::SelfComparison(start));
        }
        let strict = self.field(0, 1)? == 1;
        let ticks = self.field(0, 2_000_000)? as i32 - 1_000_000;
        Ok(Condition { left: left as u8, right: right as u8, strict, ticks })
    }

    fn label(&mut self, channels: &[Kind], side: Side) -> Result<Label, Fault> {
        let start = self.at;
        let v = self.field(0, 2 * channels.len() as u32)?;
        if v == 0 {
            return Ok(Label::Alone);
        }
        let k = ((v - 1) / 2) as usize;
        let sends = v % 2 == 1;
        let fits = match channels[k] {
            Kind::Hidden => true,
            Kind::Input => (side == Side::Environment) == sends,
            Kind::Output => (side == Side::System) == sends,
        };
        if !fits {
            return Err(Fault::AgainstSide(start));
        }
        Ok(if sends { Label::Send(k as u8) } else { Label::Receive(k as u8) })
    }

    fn edge(&mut self, network: &Network) -> Result<Edge, Fault> {
        let clocks = u32::from(network.clocks);
        let process = self.field(0, network.count as u32 - 1)?;
        let owner = &network.processes[process as usize];
        let last = owner.count as u32 - 1;
        let from = self.field(0, last)? as u8;
        let to = self.field(0, last)? as u8;
        let label = self.label(&network.channels[..network.width], owner.side)?;
        let count = self.field(0, 4)? as usize;
        let mut conditions = [Condition::default(); 4];
        for condition in &mut conditions[..count] {
            *condition = self.condition(clocks)?;
        }
        let resets = self.field(0, (1 << clocks) - 1)? as u8;
        Ok(Edge { process: process as u8, from, to, label, count, conditions, resets })
    }
}

/// Reads a sheet into the place; a refused one leaves the place as it was.
pub fn read_sheet(bytes: &[u8], place: &mut Network) -> Result<(), Fault> {
    let mut cursor = Cursor { bytes, at: 0 };
    let mut network = Network::smallest();
    cursor.field(1, 1)?;
    network.clocks = cursor.field(0, 8)? as u8;
    network.width = cursor.field(0, 32)? as usize;
    for kind in &mut network.channels[..network.width] {
        *kind = match cursor.field(0, 2)? {
            0 => Kind::Input,
            1 => Kind::Output,
            _ => Kind::Hidden,
        };
    }
    network.count = cursor.field(1, 8)? as usize;
    for i in 0..network.count {
        network.processes[i] = cursor.process(u32::from(network.clocks))?;
    }
    network.edge_count = cursor.field(0, 128)? as usize;
    for i in 0..network.edge_count {
        let edge = cursor.edge(&network)?;
        network.leaving[usize::from(edge.process)][usize::from(edge.from)] |= 1 << i;
        network.edges[i] = edge;
    }
    if cursor.at != bytes.len() {
        return Err(Fault::LeftOver(cursor.at));
    }
    *place = network;
    Ok(())
}
