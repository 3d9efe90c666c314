//! Compares the proved run with two unproved implementations of run files, which share some passages, byte by byte, and measures all three.
//!
//!     bench compare COUNT SEED    runs COUNT random texts on pages of many sizes
//!     bench speed                 four texts of full size, in nanoseconds a line

mod texts;
mod tuned;
mod twin;

use std::collections::BTreeMap;
use std::hint::black_box;
use std::process::ExitCode;
use std::time::Instant;
use texts::{Random, Study, Taste, TEXT_MOST};

extern "C" {
    fn waskurin_run(text: *const u8, text_len: usize, page: *mut u8, page_len: usize) -> usize;
}

/// The proved run. A slice's pointer is valid for its length and never null, and a `&mut` overlaps nothing.
fn proved(text: &[u8], page: &mut [u8]) -> usize {
    unsafe { waskurin_run(text.as_ptr(), text.len(), page.as_mut_ptr(), page.len()) }
}

type Run = fn(&[u8], &mut [u8]) -> usize;

/// Bytes before and behind a page, which are not the run's.
const MARGIN: usize = 64;

/// A byte that tells its place, so that bytes which moved are seen too.
fn pattern(place: usize) -> u8 {
    (place * 7 % 251) as u8
}

/// What a run answers, and all that it leaves: its page with the margins around it.
fn left_by(run: Run, text: &[u8], page_len: usize) -> (usize, Vec<u8>) {
    let mut memory: Vec<u8> = (0..page_len + 2 * MARGIN).map(pattern).collect();
    let written = run(text, &mut memory[MARGIN..MARGIN + page_len]);
    (written, memory)
}

/// Sizes of pages: below and around each limit, large ones, and for the last the size where the answers just fit.
fn page_lens(random: &mut Random, answers: usize) -> [usize; 4] {
    let small = random.one_of(&[0, 1, 31, 32, 33, 64, 191, 192, 193]);
    let some = random.within(0, 3_000) as usize;
    let near = (answers + random.one_of(&[185, 190, 191, 192, 193])).saturating_sub(random.one_of(&[0, 0, 1, 18, 20]));
    [small, some, 65_536, near]
}

/// Counts the answers of a page by what they are.
fn count(page: &[u8], seen: &mut BTreeMap<String, u64>) {
    for line in String::from_utf8_lossy(page).lines() {
        let words: Vec<_> = line.trim_matches(&['(', ')']).split(' ').collect();
        let name = match words[..] {
            [kind @ ("refused" | "fault"), number, ..] => format!("{kind} {number}"),
            [kind, ..] => kind.to_string(),
            [] => String::new(),
        };
        *seen.entry(name).or_default() += 1;
    }
}

/// Every answer that a run can give: none may be missing from a comparison that says that all agree.
fn all_answers() -> Vec<String> {
    let refusals = (1..=15).map(|number| format!("refused {number}"));
    let faults = (21..=27).map(|number| format!("fault {number}"));
    ["done", "left"].map(String::from).into_iter().chain(refusals).chain(faults).collect()
}

fn compare(texts: u64, seed: u64) -> Result<(), String> {
    let others: [(&str, Run); 2] = [("twin", twin::run), ("tuned", tuned::run)];
    let mut seen = BTreeMap::new();
    let mut pages = 0;
    for number in 0..texts {
        let mut random = Random::new(seed.wrapping_mul(1_000_003).wrapping_add(number));
        let text = texts::any(random.next());
        let (answers, _) = left_by(twin::run, &text, 4 << 20);
        for page_len in page_lens(&mut random, answers) {
            let ours = left_by(proved, &text, page_len);
            for (name, run) in others {
                if left_by(run, &text, page_len) != ours {
                    std::fs::write("target/difference.run", &text).map_err(|error| error.to_string())?;
                    return Err(format!("text {number} of seed {seed} on a page of {page_len} bytes: the proved run and {name} differ; the text is in target/difference.run"));
                }
            }
            count(&ours.1[MARGIN..][..ours.0], &mut seen);
            pages += 1;
        }
    }
    let told: Vec<_> = seen.iter().map(|(name, times)| format!("{name}: {times}")).collect();
    println!("compare: {texts} texts of seed {seed}, {pages} pages, no difference ({})", told.join(", "));
    match all_answers().into_iter().find(|name| !seen.contains_key(name)) {
        Some(name) => Err(format!("no text was answered by '{name}'")),
        None => Ok(()),
    }
}

/// The least time of many runs, in nanoseconds: what disturbs a run only makes it longer.
fn least_time(run: Run, text: &[u8], page: &mut [u8]) -> f64 {
    let start = Instant::now();
    black_box(run(black_box(text), page));
    start.elapsed().as_nanos() as f64
}

fn speed() {
    let tastes = [("steady", Taste::STEADY), ("changes", Taste::CHANGES), ("refusals", Taste::REFUSALS), ("faults", Taste::FAULTS)];
    let runs: [Run; 3] = [proved, twin::run, tuned::run];
    let mut page = vec![0; 4 << 20];
    println!("text      lines  proved ns/line  twin ns/line  ratio  tuned ns/line");
    for (name, taste) in tastes {
        let text = texts::full(Study::large(Random::new(1), taste), TEXT_MOST);
        let lines = text.split_inclusive(|byte| *byte == b'\n').count();
        let mut least = [f64::MAX; 3];
        // In turn, so that a slower spell of the machine meets all three.
        for _ in 0..100 {
            for (run, least) in runs.into_iter().zip(&mut least) {
                *least = least.min(least_time(run, &text, &mut page));
            }
        }
        let [proved, twin, tuned] = least.map(|time| time / lines as f64);
        println!("{name:8} {lines:6} {proved:15.1} {twin:13.1} {:6.2} {tuned:14.1}", proved / twin);
    }
}

fn main() -> ExitCode {
    let args: Vec<_> = std::env::args().skip(1).collect();
    let words: Vec<_> = args.iter().map(String::as_str).collect();
    let done = match words[..] {
        ["compare", texts, seed] => match (texts.parse(), seed.parse()) {
            (Ok(texts), Ok(seed)) => compare(texts, seed),
            _ => Err("COUNT and SEED are numbers".to_string()),
        },
        ["speed"] => {
            speed();
            Ok(())
        }
        _ => Err("usage: bench compare COUNT SEED, or bench speed".to_string()),
    };
    match done {
        Ok(()) => ExitCode::SUCCESS,
        Err(why) => {
            eprintln!("bench: {why}");
            ExitCode::FAILURE
        }
    }
}
