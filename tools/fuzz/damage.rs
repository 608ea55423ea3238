//! Damaged pairs, made from sound ones. What pair is made hangs only on the seed, its number and the sound pairs.
use crate::pairs::Pair;

/// Splitmix64, a stream for each number.
pub struct Rng(u64);

impl Rng {
    pub fn new(seed: u64, number: u64) -> Rng {
        let apart = Rng(seed).next() ^ number;
        Rng(Rng(apart).next())
    }

    fn next(&mut self) -> u64 {
        self.0 = self.0.wrapping_add(0x9e37_79b9_7f4a_7c15);
        let z = (self.0 ^ (self.0 >> 30)).wrapping_mul(0xbf58_476d_1ce4_e5b9);
        let z = (z ^ (z >> 27)).wrapping_mul(0x94d0_49bb_1331_11eb);
        z ^ (z >> 31)
    }

    /// A number below `top`, or 0.
    pub fn below(&mut self, top: usize) -> usize {
        (u128::from(self.next()) * top as u128 >> 64) as usize
    }

    fn one_in(&mut self, many: usize) -> bool {
        self.below(many) == 0
    }

    fn pick<T: Copy>(&mut self, from: &[T]) -> T {
        from[self.below(from.len())]
    }

    /// Small numbers mostly.
    fn few(&mut self, most: usize) -> usize {
        let top = 1 + self.below(most);
        1 + self.below(top)
    }
}

// ---- numbers

/// Values at the edges of what some field or rule allows.
const EDGES: [u32; 26] = [
    0, 1, 2, 3, 4, 5, 8, 9, 15, 16, 17, 31, 32, 33, 64, 65, 127, 128, 129, 255, 256, 999_999, 1_000_000, 1_000_001, 2_000_000,
    2_000_001,
];

const LARGE: [u32; 8] = [1 << 21, (1 << 28) - 1, 1 << 28, (1 << 31) - 1, 1 << 31, u32::MAX - 1, u32::MAX, 3_567_587_560];

fn value(rng: &mut Rng) -> u32 {
    match rng.below(4) {
        0 => rng.below(20) as u32,
        1 => rng.pick(&EDGES),
        2 => rng.pick(&LARGE),
        _ => rng.next() as u32,
    }
}

fn write(bytes: &mut Vec<u8>, mut value: u32) {
    while value >= 128 {
        bytes.push(value as u8 | 128);
        value >>= 7;
    }
    bytes.push(value as u8);
}

/// Where the numbers of a file stand, each to its last byte, with their values as far as 32 bits go.
fn numbers(bytes: &[u8]) -> Vec<(std::ops::Range<usize>, u32)> {
    let mut all = Vec::new();
    let mut start = 0;
    for (i, byte) in bytes.iter().enumerate() {
        if *byte < 128 {
            let value = bytes[start..=i].iter().rev().fold(0u64, |v, b| v << 7 | u64::from(b & 127));
            all.push((start..i + 1, value as u32));
            start = i + 1;
        }
    }
    all
}

// ---- one file

type Damage = fn(&mut Rng, &mut Vec<u8>, &[u8]);

fn byte(rng: &mut Rng, old: u8) -> u8 {
    match rng.below(4) {
        0 => rng.next() as u8,
        1 => rng.pick(&[0, 1, 2, 3, 127, 128, 129, 255]),
        2 => rng.pick(&[old.wrapping_add(1), old.wrapping_sub(1)]),
        _ => old ^ 1 << rng.below(8),
    }
}

fn change(rng: &mut Rng, bytes: &mut Vec<u8>, _: &[u8]) {
    for _ in 0..rng.few(8) {
        let at = rng.below(bytes.len());
        if let Some(old) = bytes.get_mut(at) {
            *old = byte(rng, *old);
        }
    }
}

fn cut(rng: &mut Rng, bytes: &mut Vec<u8>, _: &[u8]) {
    let at = rng.below(bytes.len());
    let end = match rng.below(3) {
        0 => bytes.len(),
        1 => at + rng.few(8),
        _ => at + rng.below(bytes.len()),
    };
    bytes.drain(at..end.min(bytes.len()));
}

fn insert(rng: &mut Rng, bytes: &mut Vec<u8>, _: &[u8]) {
    let at = rng.below(bytes.len() + 1);
    let count = rng.few(8);
    let more: Vec<u8> = match rng.below(3) {
        0 => (0..count).map(|_| byte(rng, 0)).collect(),
        1 => vec![byte(rng, 0); count],
        _ => {
            let from = rng.below(bytes.len());
            bytes[from..].iter().take(rng.few(64)).copied().collect()
        }
    };
    bytes.splice(at..at, more);
}

fn swap(rng: &mut Rng, bytes: &mut Vec<u8>, _: &[u8]) {
    let at = rng.below(bytes.len());
    let end = (at + 1 + rng.few(16)).min(bytes.len());
    match rng.below(4) {
        0 if at < bytes.len() => {
            let other = rng.below(bytes.len());
            bytes.swap(at, other);
        }
        1 => bytes[at..end].reverse(),
        2 if at < end => bytes[at..end].rotate_left(1),
        _ if at < end => bytes.swap(at, end - 1),
        _ => {}
    }
}

/// The front of a file and the back of another; the other may be whole.
fn join(rng: &mut Rng, bytes: &mut Vec<u8>, other: &[u8]) {
    let at = match rng.below(4) {
        0 => bytes.len(),
        1 => bytes.len().saturating_sub(1),
        _ => rng.below(bytes.len() + 1),
    };
    let from = match rng.below(3) {
        0 => 0,
        1 => at.min(other.len()),
        _ => rng.below(other.len() + 1),
    };
    bytes.truncate(at);
    bytes.extend_from_slice(&other[from..]);
}

/// A number becomes another, mostly in its shortest form, so that much of what is made is read further.
fn renumber(rng: &mut Rng, bytes: &mut Vec<u8>, _: &[u8]) {
    let all = numbers(bytes);
    if all.is_empty() {
        return;
    }
    let (place, old) = all[rng.below(all.len())].clone();
    let new = match rng.below(4) {
        0 => old.wrapping_add(1),
        1 => old.wrapping_sub(1),
        2 => rng.below(12) as u32,
        _ => value(rng),
    };
    let mut written = Vec::new();
    write(&mut written, new);
    if rng.one_in(16) {
        // not the shortest form
        *written.last_mut().expect("a number has a byte") |= 128;
        written.push(0);
    }
    bytes.splice(place, written);
}

const DAMAGES: [Damage; 6] = [change, cut, insert, swap, join, renumber];

// ---- pairs

/// The channels of a sound sheet that can be seen.
fn visible(sheet: &[u8]) -> Vec<u32> {
    let channels = sheet.get(2).map_or(0, |count| usize::from(*count));
    sheet.iter().skip(3).take(channels).enumerate().filter(|(_, kind)| **kind != 2).map(|(k, _)| k as u32).collect()
}

fn wait(bytes: &mut Vec<u8>, ticks: u32) {
    bytes.push(0);
    write(bytes, ticks);
}

fn see(rng: &mut Rng, bytes: &mut Vec<u8>, seen: &[u32]) {
    bytes.push(1);
    let channel = if seen.is_empty() || rng.one_in(16) { value(rng) } else { rng.pick(seen) };
    write(bytes, channel);
}

/// Waits and sees, with waits that go far and sees of channels that there are.
fn items(rng: &mut Rng, bytes: &mut Vec<u8>, seen: &[u32], most: usize) {
    let far = rng.below(3);
    for _ in 0..rng.below(most + 1) {
        if rng.below(2) == 0 {
            see(rng, bytes, seen);
            continue;
        }
        let ticks = match far {
            0 => rng.below(8) as u32,
            1 => rng.pick(&LARGE),
            _ => value(rng),
        };
        wait(bytes, ticks);
    }
}

fn end(rng: &mut Rng, bytes: &mut Vec<u8>) {
    if !rng.one_in(16) {
        bytes.push(2);
    }
}

/// A process in one location, and nothing else but clocks: no wait breaks here.
fn free(rng: &mut Rng) -> Vec<u8> {
    vec![1, rng.below(9) as u8, 0, 1, rng.below(2) as u8, 1, 0, 0]
}

/// So many items of the longest wait have room in a watch; a wait of `REST` behind them reaches the last tick.
const LONG_WAITS: usize = 232;
const REST: u32 = 3_567_587_560;

pub struct Maker {
    pub seed: u64,
    pub sound: Vec<Pair>,
}

/// How a pair is made, and in how many of a thousand.
type Making = (&'static str, usize, fn(&Maker, &mut Rng) -> Pair);

const MAKINGS: [Making; 12] = [
    ("bytes changed", 140, |m, rng| m.damaged(rng, change)),
    ("bytes cut", 90, |m, rng| m.damaged(rng, cut)),
    ("bytes inserted", 90, |m, rng| m.damaged(rng, insert)),
    ("bytes swapped", 90, |m, rng| m.damaged(rng, swap)),
    ("two files joined", 90, |m, rng| m.damaged(rng, join)),
    ("numbers changed", 200, |m, rng| m.damaged(rng, renumber)),
    ("several of these, in both", 80, Maker::several),
    ("a sheet and another's recording", 80, Maker::crossed),
    ("recordings with huge waits", 80, Maker::far),
    ("pure noise", 50, Maker::noise),
    ("sheets at the limits", 5, Maker::at_the_limits),
    ("files about as long as may be", 5, Maker::long),
];

impl Maker {
    /// The pair of this number, and how it was made.
    pub fn pair(&self, number: u64) -> (&'static str, Pair) {
        let mut rng = Rng::new(self.seed, number);
        let mut at = rng.below(1000);
        for (name, share, make) in MAKINGS {
            if at < share {
                return (name, make(self, &mut rng));
            }
            at -= share;
        }
        unreachable!("the shares make a thousand")
    }

    fn any(&self, rng: &mut Rng) -> &Pair {
        &self.sound[rng.below(self.sound.len())]
    }

    fn damaged(&self, rng: &mut Rng, damage: Damage) -> Pair {
        let mut pair = self.any(rng).clone();
        let other = self.any(rng);
        let which = rng.below(3);
        if which != 0 {
            damage(rng, &mut pair.sheet, &other.sheet);
        }
        if which != 1 {
            damage(rng, &mut pair.recording, &other.recording);
        }
        pair
    }

    fn several(&self, rng: &mut Rng) -> Pair {
        let mut pair = self.any(rng).clone();
        for _ in 0..rng.few(4) {
            let other = self.any(rng);
            rng.pick(&DAMAGES)(rng, &mut pair.sheet, &other.sheet);
            rng.pick(&DAMAGES)(rng, &mut pair.recording, &other.recording);
        }
        pair
    }

    fn crossed(&self, rng: &mut Rng) -> Pair {
        let mut pair = Pair { sheet: self.any(rng).sheet.clone(), recording: self.any(rng).recording.clone() };
        if rng.below(2) == 0 {
            let seen = visible(&pair.sheet);
            pair.recording.clear();
            items(rng, &mut pair.recording, &seen, 12);
            end(rng, &mut pair.recording);
        }
        pair
    }

    fn far(&self, rng: &mut Rng) -> Pair {
        let sheet = if rng.one_in(3) { free(rng) } else { self.any(rng).sheet.clone() };
        let seen = visible(&sheet);
        let mut recording = Vec::new();
        if rng.below(2) == 0 {
            // to the last tick, or about there
            for _ in 0..LONG_WAITS {
                wait(&mut recording, u32::MAX);
            }
            let rest = REST - 2 + rng.below(5) as u32;
            wait(&mut recording, rest);
            items(rng, &mut recording, &seen, 4);
        } else {
            items(rng, &mut recording, &seen, 30);
        }
        end(rng, &mut recording);
        Pair { sheet, recording }
    }

    fn noise(&self, rng: &mut Rng) -> Pair {
        let mut pair = Pair { sheet: noise(rng), recording: noise(rng) };
        if rng.below(2) == 0 {
            pair.sheet = self.any(rng).sheet.clone();
        }
        pair
    }

    fn at_the_limits(&self, rng: &mut Rng) -> Pair {
        let sheet = largest(rng);
        let seen = visible(&sheet);
        let mut recording = Vec::new();
        items(rng, &mut recording, &seen, 8);
        end(rng, &mut recording);
        Pair { sheet, recording }
    }

    /// One of the files goes on to the most bytes, or one or two more or less.
    fn long(&self, rng: &mut Rng) -> Pair {
        let mut pair = self.any(rng).clone();
        let length = 16_384 - 2 + rng.below(5);
        if rng.one_in(4) {
            let filling = byte(rng, 0);
            pair.sheet.resize(length, filling);
            return pair;
        }
        pair.recording.pop();
        let seen = visible(&pair.sheet);
        let filling = rng.below(4);
        while pair.recording.len() < length {
            match filling {
                0 => pair.recording.extend_from_slice(&[0, 0]),
                1 => wait(&mut pair.recording, 1),
                2 => items(rng, &mut pair.recording, &seen, 100),
                _ => pair.recording.push(byte(rng, 0)),
            }
        }
        pair.recording.truncate(length - 1);
        pair.recording.push(2);
        pair
    }
}

fn noise(rng: &mut Rng) -> Vec<u8> {
    let count = match rng.below(64) {
        0 => rng.below(16_390),
        1..8 => rng.below(500),
        _ => rng.below(48),
    };
    let from: &[u8] = match rng.below(4) {
        0 => &[0, 1, 2],
        1 => &[0, 1, 2, 3, 4, 128],
        2 => &[127, 128, 129, 255, 0, 15, 16],
        _ => &[],
    };
    let mut bytes: Vec<u8> = (0..count).map(|_| if from.is_empty() { rng.next() as u8 } else { rng.pick(from) }).collect();
    if rng.below(2) == 0 {
        // a version that there is
        bytes.insert(0, 1);
    }
    bytes
}

/// A sheet whose counts and values are mostly the largest or the least there are, and sometimes one more.
fn largest(rng: &mut Rng) -> Vec<u8> {
    let mut fields = Vec::new();
    let clocks = most(rng, 8, 0);
    let channels = most(rng, 32, 0);
    let processes = most(rng, 8, 1);
    fields.extend([1, clocks, channels]);
    let all_hidden = rng.one_in(4);
    let kinds: Vec<usize> = (0..channels).map(|_| if all_hidden { 2 } else { rng.below(3) }).collect();
    fields.extend(&kinds);
    fields.push(processes);
    let owners: Vec<(usize, usize)> = (0..processes).map(|_| process(rng, &mut fields, clocks)).collect();
    let edges = most(rng, 128, 0);
    fields.push(edges);
    // Where few labels are in use, many edges move in pairs.
    let labels = rng.pick(&[1, 3, 2 * channels + 1, 2 * channels + 1]).min(2 * channels + 1);
    for _ in 0..edges {
        edge(rng, &mut fields, clocks, labels, &kinds, &owners);
    }
    if rng.one_in(3) {
        let at = rng.below(fields.len());
        fields[at] += 1;
    }
    let mut sheet = Vec::new();
    for field in fields {
        write(&mut sheet, field as u32);
    }
    sheet
}

/// Mostly the top.
fn most(rng: &mut Rng, top: usize, least: usize) -> usize {
    match rng.below(8) {
        0 => least,
        1 => least + rng.below(top - least + 1),
        _ => top,
    }
}

/// The fields of a process: its side, and how many locations it has.
fn process(rng: &mut Rng, fields: &mut Vec<usize>, clocks: usize) -> (usize, usize) {
    let side = rng.below(2);
    let count = most(rng, 16, 1);
    fields.extend([side, count]);
    for _ in 0..count {
        let limits = if clocks == 0 { 0 } else { most(rng, 2, 0) };
        fields.push(limits);
        for _ in 0..limits {
            let mark = rng.below(2);
            fields.extend([1 + rng.below(clocks), mark, rng.pick(&[mark, 1, 2, 999_999, 1_000_000, 1_000_000, 1_000_000])]);
        }
    }
    (side, count)
}

/// The fields of an edge of one of the processes, which are given by side and count of locations.
fn edge(rng: &mut Rng, fields: &mut Vec<usize>, clocks: usize, labels: usize, kinds: &[usize], owners: &[(usize, usize)]) {
    let process = rng.below(owners.len());
    let (side, count) = owners[process];
    let label = rng.below(labels);
    // An input is sent by the environment, side 0, and received by the system; an output the other way.
    let allowed = label == 0 || kinds[(label - 1) / 2] == 2 || (label % 2 == 1) == (kinds[(label - 1) / 2] == side);
    let from = if rng.below(2) == 0 { 0 } else { rng.below(count) };
    let to = rng.below(count);
    fields.extend([process, from, to, if allowed { label } else { 0 }]);
    let conditions = if clocks == 0 { 0 } else { most(rng, 4, 0) };
    fields.push(conditions);
    for _ in 0..conditions {
        let left = rng.below(clocks + 1);
        let right = (left + 1 + rng.below(clocks)) % (clocks + 1);
        let c = rng.pick(&[0, 1, 999_999, 1_000_000, 1_000_001, 1_999_999, 2_000_000, 2_000_000, 2_000_000, 2_000_000]);
        fields.extend([left, right, rng.below(2), c]);
    }
    let all = (1 << clocks) - 1;
    fields.push(rng.pick(&[0, all, all]) & rng.pick(&[255, 255, 1, 85]));
}
