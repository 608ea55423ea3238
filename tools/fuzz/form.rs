//! The form of what is written of two files, as docs/FORMATS.md and docs/REFUSALS.md have it, and what the files alone say of it.
use crate::pairs::Pair;

const LONGEST: usize = 16_384;
const MOST_TICKS: u64 = 1_000_000_000_000;

/// The text of a row: at most 100 bytes, whole lines, and nothing but zeros behind it.
pub fn text(row: &[u8; 128]) -> Option<&str> {
    let (text, rest) = row.split_at(row.iter().position(|byte| *byte == 0)?);
    let whole = text.len() <= 100 && text.ends_with(b"\n") && rest.iter().all(|byte| *byte == 0);
    if whole { std::str::from_utf8(text).ok() } else { None }
}

/// A number in decimal, without zeros in front.
fn number(word: &str) -> Option<u64> {
    let value: u64 = word.parse().ok()?;
    (value.to_string() == word).then_some(value)
}

/// The place of a refusal of a file.
fn in_file(file: &[u8], rule: u64, place: u64) -> bool {
    if rule == 2 { place == file.len() as u64 } else { place < file.len() as u64 }
}

fn refused_alone(pair: &Pair, document: &str, rule: u64, place: u64) -> bool {
    let too_long = pair.sheet.len().max(pair.recording.len()) > LONGEST;
    match (document, rule) {
        ("program", 1) => too_long && place == LONGEST as u64,
        ("sheet", 2..=7) => !too_long && in_file(&pair.sheet, rule, place),
        _ => false,
    }
}

fn refused_beside(pair: &Pair, count: u64, document: &str, rule: u64, place: u64) -> bool {
    match (document, rule) {
        ("recording", 2 | 3 | 4 | 7) => in_file(&pair.recording, rule, place),
        ("watch", 9 | 10) => place == count,
        _ => false,
    }
}

fn reported(pair: &Pair, verdict: &str, cause: u64, count: u64, tick: u64) -> bool {
    let ended = match (verdict, cause) {
        ("pass", 0) => pair.recording.ends_with(&[2]),
        ("fail" | "inconclusive", 1 | 2) | ("inconclusive", 3) => count > 0,
        ("inconclusive", 4) => true,
        _ => false,
    };
    // An item has two bytes at least.
    ended && count <= pair.recording.len() as u64 / 2 && tick <= MOST_TICKS
}

/// What came of the pair: the verdict and its cause, or the refusal's document and number. None where the text is none that is
/// documented, or none that may be written of these files.
pub fn outcome(pair: &Pair, text: &str) -> Option<String> {
    let words: Vec<&str> = text.strip_suffix('\n')?.split(' ').collect();
    match words.as_slice() {
        ["refused", document, rule, place] => {
            refused_alone(pair, document, number(rule)?, number(place)?).then(|| format!("refused {document} {rule}"))
        }
        [verdict, cause, count, tick] => {
            let cause = number(cause)?;
            (cause != 4 && reported(pair, verdict, cause, number(count)?, number(tick)?)).then(|| format!("{verdict} {cause}"))
        }
        [verdict, cause @ "4", count, between, document, rule, place] => {
            let (count, tick) = (number(count)?, number(between.strip_suffix("\nrefused")?)?);
            (reported(pair, verdict, 4, count, tick) && refused_beside(pair, count, document, number(rule)?, number(place)?))
                .then(|| format!("{verdict} {cause} {document} {rule}"))
        }
        _ => None,
    }
}
