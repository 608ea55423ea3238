//! Pairs of files, and the text that they have in a file of cases: a line each, the sheet and the recording in hexadecimal (`-` is
//! an empty file, `!` a missing one) and what is to be written of them, its line feeds as `\n`.
use std::fmt::Write;
use std::hash::{DefaultHasher, Hash, Hasher};
use std::io::{BufRead, BufReader};

#[derive(Clone, Default, PartialEq, Eq, Hash)]
pub struct Pair {
    pub sheet: Vec<u8>,
    pub recording: Vec<u8>,
}

pub struct Case {
    pub pair: Pair,
    pub expected: String,
}

fn hexed(text: &mut String, bytes: &[u8]) {
    if bytes.is_empty() {
        text.push('-');
    }
    for byte in bytes {
        write!(text, "{byte:02x}").expect("a string takes all");
    }
}

fn bytes_of(word: &str) -> Option<Vec<u8>> {
    if word == "-" || word == "!" {
        return Some(Vec::new());
    }
    let digit = |d: u8| char::from(d).to_digit(16);
    let two = |pair: &[u8]| Some((digit(pair[0])? * 16 + digit(pair[1])?) as u8);
    if word.len() % 2 == 0 { word.as_bytes().chunks_exact(2).map(two).collect() } else { None }
}

impl Pair {
    /// Both files in hexadecimal.
    pub fn text(&self) -> String {
        let mut text = String::with_capacity(2 * (self.sheet.len() + self.recording.len()) + 2);
        hexed(&mut text, &self.sheet);
        text.push(' ');
        hexed(&mut text, &self.recording);
        text
    }

    pub fn digest(&self) -> u64 {
        let mut hasher = DefaultHasher::new();
        self.hash(&mut hasher);
        hasher.finish()
    }
}

impl Case {
    fn of(line: &str) -> Option<Case> {
        let mut words = line.splitn(3, ' ');
        let pair = Pair { sheet: bytes_of(words.next()?)?, recording: bytes_of(words.next()?)? };
        Some(Case { pair, expected: words.next()?.replace("\\n", "\n") })
    }

    /// Whether neither file is to be refused.
    pub fn is_sound(&self) -> bool {
        !["refused program", "refused sheet", "refused recording"].iter().any(|fault| self.expected.contains(fault))
    }
}

/// The cases of a file, whole.
pub fn cases(path: &str) -> Vec<Case> {
    let file = std::fs::File::open(path).unwrap_or_else(|e| panic!("{path}: {e}"));
    let case = |(i, line): (usize, std::io::Result<String>)| {
        let line = line.unwrap_or_else(|e| panic!("{path}: {e}"));
        Case::of(&line).unwrap_or_else(|| panic!("{path}: line {} is no case", i + 1))
    };
    BufReader::with_capacity(1 << 20, file).lines().enumerate().map(case).collect()
}
