//! The bench program and the independent listing on the same scripts, byte for byte; each script a process of its own.

use crate::format::{MAX_UNITS, MIN_UNITS};
use crate::made::{self, Make};
use crate::places;
use crate::play::{Seen, PLACES};
use crate::program::{Failure, Feed};
use crate::random::Random;
use crate::script_damage;
use crate::shrink::fewer;
use std::fmt::Write;
use std::ops::Range;
use std::path::Path;

/// What plays a script and gives its listing.
pub type Player<'a> = &'a dyn Fn(&[u8], Feed) -> Result<Vec<u8>, Failure>;

/// How often a script is played to make it smaller: first its lines, then its bytes.
const MOST_TRIES: u32 = 2_000;

/// What a bench can answer.
const NUMBERS: [usize; 7] = [0, 5, 6, 8, 9, 10, 11];

/// What scripts reached, as their listings show. `closed`: scripts that decided, by engine and n.
#[derive(Default)]
struct Tally {
    scripts: u64,
    lines: u64,
    decisions: u64,
    seen: Seen,
    full: u64,
    feeds: [u64; 4],
    numbers: [u64; 12],
    closed: [[u64; 17]; 2],
}

impl Tally {
    fn count(&mut self, listing: &[u8], feed: Feed) {
        let text = String::from_utf8_lossy(listing);
        let header: Vec<&str> = text.lines().next().unwrap_or("").split(',').collect();
        let decisions = text
            .lines()
            .map(|line| self.count_line(line))
            .filter(|&decided| decided)
            .count() as u64;
        self.scripts += 1;
        self.decisions += decisions;
        self.full += u64::from(text.ends_with(&format!(",{}\n", PLACES)));
        self.feeds[match feed {
            Feed::Whole => 0,
            Feed::Pieces(_) => 1,
            Feed::Bytes => 2,
            Feed::BytesSlowly => 3,
        }] += 1;
        if let (true, Some(n)) = (
            decisions > 0,
            header.get(1).and_then(|n| n.parse::<usize>().ok()),
        ) {
            self.closed[usize::from(header[0] == "R")][n] += 1;
        }
    }

    /// Says whether the line has a decision.
    fn count_line(&mut self, line: &str) -> bool {
        let fields: Vec<&str> = line.split(',').collect();
        let [_, _, _, number, _, decision] = fields[..] else {
            return false;
        };
        self.lines += 1;
        if let Some(count) = number
            .parse::<usize>()
            .ok()
            .and_then(|number| self.numbers.get_mut(number))
        {
            *count += 1;
        }
        decision != "-"
    }

    fn summary(&self) -> Result<String, String> {
        let mut missing: Vec<String> = NUMBERS
            .iter()
            .filter(|&&number| self.numbers[number] == 0)
            .map(|number| format!("number {number}"))
            .collect();
        for n in MIN_UNITS as usize..=MAX_UNITS as usize {
            if self.closed[0][n] == 0 || self.closed[1][n] == 0 {
                missing.push(format!("a decision with n = {n} in each engine"));
            }
        }
        let Seen {
            later,
            again,
            cut,
            crowded,
        } = self.seen;
        if later == 0 || self.full == 0 || self.feeds.contains(&0) {
            missing.push("a later round, all places filled, or a way to feed".to_string());
        }
        if [again, cut, crowded].contains(&0) {
            missing.push(format!(
                "a vote sent again {again}, cut {cut}, or refused with 11 {crowded}"
            ));
        }
        if !missing.is_empty() {
            return Err(format!("never reached: {}", missing.join(", ")));
        }
        let numbers: Vec<String> = NUMBERS
            .iter()
            .map(|&number| format!("{number}: {}", self.numbers[number]))
            .collect();
        Ok(format!(
            "{} scripts of {} lines, {} whole, {} in pieces, {} by bytes, {} by bytes slowly; \
             {} decisions, {later} in a later round; {} fill all places; votes sent again {again}, cut {cut}, refused with 11 {crowded}; {}",
            self.scripts,
            self.lines,
            self.feeds[0],
            self.feeds[1],
            self.feeds[2],
            self.feeds[3],
            self.decisions,
            self.full,
            numbers.join(", ")
        ))
    }
}

/// How much of a script is shown, and how many lines before and behind a difference of listings.
const MOST_LINES: usize = 100;
const MOST_BYTES: usize = 4000;
const AROUND: usize = 10;

/// These lines: printable bytes as they are, others by their value; a line's end also ends the line here.
fn shown(bytes: &[u8], wanted: Range<usize>) -> String {
    let lines: Vec<&[u8]> = bytes.split_inclusive(|&byte| byte == b'\n').collect();
    let (from, to) = (wanted.start.min(lines.len()), wanted.end.min(lines.len()));
    let part = lines[from..to].concat();
    let mut text = match to - from {
        all if all == lines.len() => format!("{all} lines:\n"),
        _ => format!("lines {} to {to} of {}:\n", from + 1, lines.len()),
    };
    for &byte in part.iter().take(MOST_BYTES) {
        let _ = match byte {
            b'\n' => writeln!(text, "\\n"),
            b'\\' | 0..=31 | 127..=255 => write!(text, "\\x{byte:02x}"),
            _ => write!(text, "{}", byte as char),
        };
    }
    text + match (part.len() > MOST_BYTES, to < lines.len()) {
        (true, _) => "... (cut here)\n",
        (_, true) => "...\n",
        _ => "(the end)\n",
    }
}

/// Where two listings differ first, and the lines there.
fn difference(one: &[u8], other: &[u8]) -> String {
    let same = one
        .iter()
        .zip(other)
        .take_while(|(one, other)| one == other);
    let at = same.count();
    let line = one[..at].iter().filter(|&&byte| byte == b'\n').count();
    let around = line.saturating_sub(AROUND)..line + AROUND + 1;
    format!(
        "they differ first in line {}, at byte {at} of the listing\nprogram, {}independent, {}",
        line + 1,
        shown(one, around.clone()),
        shown(other, around)
    )
}

/// The sides that play: the first is the program.
pub struct Players<'a>(pub Player<'a>, pub Player<'a>);

impl Players<'_> {
    /// The listing that both give.
    fn agreed(&self, script: &[u8], feed: Feed) -> Result<Vec<u8>, Failure> {
        let (one, other) = (self.0(script, feed)?, self.1(script, feed)?);
        if one == other {
            Ok(one)
        } else {
            Err(Failure::Other(difference(&one, &other)))
        }
    }

    /// Whether they still do not agree. Once a program hangs, no tries are left.
    fn still_fails(&self, script: &[u8], feed: Feed, tries: &mut u32) -> bool {
        let result = self.agreed(script, feed);
        let hangs = matches!(result, Err(Failure::Hangs(_)));
        *tries = if hangs { 0 } else { *tries - 1 };
        result.is_err() && !hangs
    }

    /// Fewer lines, then fewer bytes, on which they still do not agree.
    fn shrunk(&self, script: &[u8], feed: Feed) -> Vec<u8> {
        let lines: Vec<&[u8]> = script.split_inclusive(|&byte| byte == b'\n').collect();
        let mut tries = MOST_TRIES;
        let lines = fewer(lines, &mut |lines| {
            tries > 0 && self.still_fails(&lines.concat(), feed, &mut tries)
        });
        let mut tries = MOST_TRIES;
        fewer(lines.concat(), &mut |bytes| {
            tries > 0 && self.still_fails(bytes, feed, &mut tries)
        })
    }

    /// A script on which a program hangs is reported as it is.
    fn report(&self, script: &[u8], feed: Feed, failure: Failure) -> String {
        if let Failure::Hangs(what) = failure {
            let text = shown(script, 0..MOST_LINES);
            return format!(
                "FAILED, fed {feed:?}: {what}; the script, {} bytes in {text}",
                script.len()
            );
        }
        let bytes = self.shrunk(script, feed);
        let failure = self.agreed(&bytes, feed).err().unwrap_or(failure);
        format!(
            "FAILED, shrunk from {} to {} bytes, fed {feed:?}, in {}{failure}",
            script.len(),
            bytes.len(),
            shown(&bytes, 0..MOST_LINES)
        )
    }

    /// The listing that both give; or a report of a smaller script on which they do not agree.
    pub fn listing(&self, script: &[u8], feed: Feed) -> Result<Vec<u8>, String> {
        self.agreed(script, feed)
            .map_err(|failure| self.report(script, feed, failure))
    }

    fn check(&self, script: &[u8], feed: Feed, tally: &mut Tally) -> Result<(), String> {
        let listing = self.listing(script, feed)?;
        tally.count(&listing, feed);
        Ok(())
    }
}

fn some_feed(script: &[u8], random: &mut Random) -> Feed {
    match random.below(40) {
        0 if script.len() < 200 => Feed::BytesSlowly,
        1..=3 if script.len() < 4000 => Feed::Bytes,
        4..=13 => Feed::Pieces(random.number()),
        _ => Feed::Whole,
    }
}

/// Every file in the folders of stored scripts, by name: the order of a folder is not the same on every machine.
pub fn stored(folders: &[impl AsRef<Path>]) -> Result<Vec<Vec<u8>>, String> {
    let mut scripts = Vec::new();
    for folder in folders {
        let folder = folder.as_ref();
        let failed = |error: std::io::Error| {
            format!("FAILED: stored scripts in {}: {error}", folder.display())
        };
        let files = std::fs::read_dir(folder).map_err(failed)?;
        let paths: Result<Vec<_>, _> = files.map(|file| file.map(|file| file.path())).collect();
        let mut paths = paths.map_err(failed)?;
        paths.sort();
        if paths.is_empty() {
            return Err(format!("FAILED: no stored scripts in {}", folder.display()));
        }
        for path in paths {
            scripts.push(std::fs::read(path).map_err(failed)?);
        }
    }
    Ok(scripts)
}

/// How many of each kind are made, in a hundred.
pub const KINDS: [(Make, u64); 8] = [
    (made::any, 25),
    (made::rivals, 12),
    (made::probed, 15),
    (made::full, 4),
    (made::short, 4),
    (made::bad_lines, 5),
    (script_damage::damaged, 30),
    (script_damage::headed, 5),
];

pub fn run(players: &Players, hundreds: u64, random: &mut Random) -> Result<String, String> {
    let mut first = Tally::default();
    let fixed = script_damage::fixed();
    let stored = stored(&places::stored_scripts())?;
    for script in fixed.iter().chain(&stored) {
        players.check(script, Feed::Whole, &mut first)?;
        players.check(script, Feed::Pieces(random.number()), &mut first)?;
    }
    let damaged = script_damage::every_damage();
    for script in &damaged {
        let feed = some_feed(script, random);
        players.check(script, feed, &mut first)?;
    }
    let mut tally = Tally::default();
    for (make, share) in KINDS {
        for _ in 0..share * hundreds {
            let (script, seen) = make(random);
            let feed = some_feed(&script, random);
            players.check(&script, feed, &mut tally)?;
            tally.seen.add(&seen);
        }
    }
    let text = tally.summary()?;
    let (limits, files, damaged) = (fixed.len(), stored.len(), damaged.len());
    Ok(format!("{limits} scripts at limits and {files} stored, each twice; {damaged} damaged examples; made: {text}"))
}
