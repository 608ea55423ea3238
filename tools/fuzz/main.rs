//! Tries the proved judge, linked in as a static library, on files that other programs made or that are damaged here. tools/fuzz/run
//! is the one command; docs/FUZZ.md says what is done.
//!
//! usage: fuzz cases NOTE FILE LEAST                     sets what it writes beside the cases of a file, of which so many must be sound
//!        fuzz damaged NOTE FILE SEED COUNT              tries damaged pairs, made from the sound ones of the file; writes them as cases
//!        fuzz sample FILE SEED COUNT SOUND DAMAGED      writes some of the file's sound pairs, and some of the damaged
//!        fuzz pair FILE SEED NUMBER                     writes a damaged pair
//!
//! NOTE is a file in which the pair stands that is under way, should the judge take this program down.
mod damage;
mod form;
mod pairs;

use damage::{Maker, Rng};
use pairs::{Pair, cases};
use std::collections::{BTreeMap, HashSet};
use std::fs::File;
use std::io::{BufWriter, Write};
use std::os::unix::fs::FileExt;
use std::process::{ExitCode, exit};
use std::sync::{Arc, Mutex};
use std::time::Duration;

/// A pair that takes the processor longer counts as one that is never answered.
const LIMIT: Duration = Duration::from_secs(120);

unsafe extern "C" {
    fn judge_line(sheet: *const u8, sheet_len: usize, recording: *const u8, recording_len: usize, line: *mut [u8; 128]);
    fn clock_gettime(clock: i32, at: *mut [i64; 2]) -> i32;
}

/// Linux's clocks of the processor's time that this program, and that this thread, has taken: other work on the machine does not
/// count.
const PROGRAM: i32 = 2;
const THREAD: i32 = 3;

fn now(clock: i32) -> Duration {
    let mut at = [0; 2];
    assert_eq!(unsafe { clock_gettime(clock, &mut at) }, 0);
    Duration::new(at[0] as u64, at[1] as u32)
}

/// The pair that is under way, if one is, with the program's time when it began.
type UnderWay = Arc<Mutex<Option<(Duration, String)>>>;

/// Ends the program when a pair takes too long.
fn watch_over(under_way: UnderWay) {
    loop {
        std::thread::sleep(Duration::from_millis(200));
        if let Some((since, text)) = &*under_way.lock().expect("no thread fails")
            && now(PROGRAM) - *since > LIMIT
        {
            eprintln!("no answer within {LIMIT:?}: {text}");
            exit(3);
        }
    }
}

/// The judge, with all that is known of its runs.
struct Judge {
    note: File,
    under_way: UnderWay,
    runs: u64,
    time: Duration,
    slowest: (Duration, Pair),
    digests: HashSet<u64>,
    outcomes: BTreeMap<String, u64>,
    strange: u64,
}

impl Judge {
    fn new(note: &str) -> Judge {
        let under_way = UnderWay::default();
        let watched = under_way.clone();
        std::thread::spawn(move || watch_over(watched));
        Judge {
            note: File::create(note).unwrap_or_else(|e| panic!("{note}: {e}")),
            under_way,
            runs: 0,
            time: Duration::ZERO,
            slowest: (Duration::ZERO, Pair::default()),
            digests: HashSet::new(),
            outcomes: BTreeMap::new(),
            strange: 0,
        }
    }

    /// What the judge writes of the pair, whose text is given too; said if it has not the form.
    fn line(&mut self, pair: &Pair, text: &str) -> String {
        self.note.write_all_at(format!("{text}\n").as_bytes(), 0).expect("the note is written");
        *self.under_way.lock().expect("no thread fails") = Some((now(PROGRAM), text.to_string()));
        // What is not written shows.
        let mut row = [0xaa; 128];
        let start = now(THREAD);
        unsafe {
            let (sheet, recording) = (&pair.sheet, &pair.recording);
            judge_line(sheet.as_ptr(), sheet.len(), recording.as_ptr(), recording.len(), &mut row);
        }
        let took = now(THREAD) - start;
        *self.under_way.lock().expect("no thread fails") = None;

        self.runs += 1;
        self.time += took;
        if took > self.slowest.0 {
            self.slowest = (took, pair.clone());
        }
        self.digests.insert(pair.digest());
        let line = form::text(&row);
        match line.and_then(|line| form::outcome(pair, line)) {
            Some(outcome) => *self.outcomes.entry(outcome).or_default() += 1,
            None => {
                self.strange += 1;
                eprintln!("not a line of these files: \"{}\": {text}", row.escape_ascii());
            }
        }
        line.unwrap_or("").to_string()
    }

    fn tell(&self) {
        for (outcome, count) in &self.outcomes {
            eprintln!("{count:>9} {outcome}");
        }
        let (time, pair) = &self.slowest;
        eprintln!("{} pairs, {} of them distinct; {} lines out of form", self.runs, self.digests.len(), self.strange);
        eprintln!(
            "{:.1} s in the judge, {:.1} us a pair",
            self.time.as_secs_f64(),
            self.time.as_secs_f64() * 1e6 / self.runs.max(1) as f64
        );
        eprintln!("the slowest took {:.1} ms: {}", time.as_secs_f64() * 1e3, pair.text());
    }
}

/// Whether all is as it must be.
fn compare(note: &str, file: &str, least: usize) -> bool {
    let mut judge = Judge::new(note);
    let mut sound = HashSet::new();
    let mut wrong = 0;
    for case in cases(file) {
        let text = case.pair.text();
        let line = judge.line(&case.pair, &text);
        if line != case.expected {
            wrong += 1;
            eprintln!("disagree: {text}\n  expected {:?}\n  judge    {line:?}", case.expected);
        }
        if case.is_sound() {
            sound.insert(case.pair.digest());
        }
    }
    judge.tell();
    eprintln!("{} of the distinct pairs are sound; {wrong} disagreements", sound.len());
    if sound.len() < least {
        eprintln!("at least {least} sound pairs are wanted");
    }
    wrong == 0 && judge.strange == 0 && sound.len() >= least
}

fn maker(file: &str, seed: u64) -> Maker {
    let sound: Vec<Pair> = cases(file).into_iter().filter(|case| case.is_sound()).map(|case| case.pair).collect();
    assert!(!sound.is_empty(), "{file} has a sound pair");
    Maker { seed, sound }
}

fn damaged(note: &str, maker: &Maker, count: u64) -> bool {
    let mut judge = Judge::new(note);
    let mut out = BufWriter::with_capacity(1 << 20, std::io::stdout().lock());
    let mut makings: BTreeMap<&str, (u64, Duration)> = BTreeMap::new();
    for number in 0..count {
        let (making, pair) = maker.pair(number);
        let text = pair.text();
        let before = judge.time;
        let line = judge.line(&pair, &text);
        let (pairs, time) = makings.entry(making).or_default();
        *pairs += 1;
        *time += judge.time - before;
        writeln!(out, "{text} {}", line.replace('\n', "\\n")).expect("the cases are taken");
    }
    out.flush().expect("the cases are taken");
    for (making, (pairs, time)) in makings {
        eprintln!("{pairs:>9} {making}, {:.1} s", time.as_secs_f64());
    }
    judge.tell();
    judge.strange == 0
}

/// So many of the numbers below `all`, spread over them.
fn spread(rng: &mut Rng, all: u64, count: u64) -> impl Iterator<Item = u64> {
    let step = (all / count.max(1)).max(1);
    (0..count.min(all)).map(move |i| i * step + rng.below(step as usize) as u64)
}

fn sample(maker: &Maker, all: u64, sound: u64, damaged: u64) {
    let mut out = BufWriter::new(std::io::stdout().lock());
    let mut rng = Rng::new(!maker.seed, 0);
    for i in spread(&mut rng, maker.sound.len() as u64, sound) {
        writeln!(out, "{}", maker.sound[i as usize].text()).expect("the pairs are taken");
    }
    for number in spread(&mut rng, all, damaged) {
        writeln!(out, "{}", maker.pair(number).1.text()).expect("the pairs are taken");
    }
}

fn main() -> ExitCode {
    let args: Vec<String> = std::env::args().skip(1).collect();
    let words: Vec<&str> = args.iter().map(String::as_str).collect();
    let number = |word: &str| word.parse::<u64>().unwrap_or_else(|_| panic!("{word} is no number"));
    let well = match words.as_slice() {
        ["cases", note, file, least] => compare(note, file, number(least) as usize),
        ["damaged", note, file, seed, count] => damaged(note, &maker(file, number(seed)), number(count)),
        ["sample", file, seed, all, sound, damaged] => {
            sample(&maker(file, number(seed)), number(all), number(sound), number(damaged));
            true
        }
        ["pair", file, seed, n] => {
            let (making, pair) = maker(file, number(seed)).pair(number(n));
            println!("{making}: {}", pair.text());
            true
        }
        _ => {
            eprintln!("usage: tools/fuzz/run");
            return ExitCode::from(2);
        }
    };
    if well { ExitCode::SUCCESS } else { ExitCode::FAILURE }
}
