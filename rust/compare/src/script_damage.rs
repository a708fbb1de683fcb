//! Scripts that are not well-formed: damaged byte by byte and field by field, malformed headers and lines, and those at the limits.

use crate::listed::{items, one_of, BAD_HEADERS, BAD_LINES, FIELDS, GOOD_HEADERS, NO_UNIT_OF_3};
use crate::made;
use crate::play::{Seen, PLACES};
use crate::random::Random;

/// Where the next byte of that value stands, looked for from anywhere on; the end if there is none.
fn next_byte(script: &[u8], byte: u8, random: &mut Random) -> usize {
    let from = random.index(script.len() + 1);
    script[from..]
        .iter()
        .position(|&other| other == byte)
        .map_or(script.len(), |at| from + at)
}

fn replace(script: &mut Vec<u8>, at: usize, len: usize, text: &[u8]) {
    let at = at.min(script.len());
    let end = script.len().min(at + len);
    script.splice(at..end, text.iter().copied());
}

fn field_len(script: &[u8], at: usize) -> usize {
    script[at..]
        .iter()
        .take_while(|byte| !b",\n".contains(byte))
        .count()
}

/// A field after some comma becomes another.
fn damage_field(script: &mut Vec<u8>, random: &mut Random) {
    let at = next_byte(script, b',', random) + 1;
    if at <= script.len() {
        let len = field_len(script, at);
        replace(script, at, len, one_of(FIELDS, random));
    }
}

/// Fields lost with their comma, and fields too many.
fn damage_commas(script: &mut Vec<u8>, random: &mut Random) {
    let byte = random.one_of(b",\n");
    let at = next_byte(script, byte, random);
    if script.get(at) == Some(&b',') {
        let len = 1 + field_len(script, at + 1);
        replace(script, at, len, b"");
    } else {
        replace(
            script,
            at,
            0,
            random.one_of(&[",", ",0", ",,", ",5,5"]).as_bytes(),
        );
    }
}

/// A byte changed, deleted or inserted.
fn damage_byte(script: &mut Vec<u8>, random: &mut Random) {
    let often = random.one_of(b",,\n\n\r \t0129PDWKUBRpdwkubrXZ\"'+-.;:/?\x80\xff\0");
    let byte = if random.chance(3, 4) {
        often
    } else {
        random.byte()
    };
    let at = random.index(script.len() + 1);
    match random.below(3) {
        0 => replace(script, at, 0, &[byte]),
        1 => replace(script, at, 1, &[byte]),
        _ => replace(script, at, 1, b""),
    }
}

/// Where lines end: joined, parted by an empty line, a byte before the end, the script cut off.
fn damage_end(script: &mut Vec<u8>, random: &mut Random) {
    let at = next_byte(script, b'\n', random);
    match random.below(6) {
        0 => replace(script, at, 1, b""),
        1 => replace(script, at, 0, b"\n"),
        2 => replace(script, at, 0, b"\r"),
        3 => replace(script, at, 0, random.one_of(&[" ", "\t"]).as_bytes()),
        4 => drop(script.pop()),
        _ => script.truncate(random.index(script.len() + 1)),
    }
}

/// A zero or a blank before a number, or a letter of the other case.
fn damage_front(script: &mut Vec<u8>, random: &mut Random) {
    let (comma, letter) = (
        next_byte(script, b',', random),
        next_byte(script, b'\n', random) + 1,
    );
    if random.chance(1, 3) && letter < script.len() {
        script[letter] ^= 32;
    } else if comma < script.len() {
        replace(script, comma + 1, 0, random.one_of(&["0", " "]).as_bytes());
    }
}

pub fn damaged(random: &mut Random) -> (Vec<u8>, Seen) {
    let (mut script, _) = made::short(random);
    for _ in 0..1 + random.below(3) {
        let damage = random.one_of(&[
            damage_field,
            damage_commas,
            damage_byte,
            damage_end,
            damage_front,
        ]);
        damage(&mut script, random);
    }
    (script, Seen::default())
}

/// A header, mostly malformed, and lines that would be good.
pub fn headed(random: &mut Random) -> (Vec<u8>, Seen) {
    let header = if random.chance(1, 8) {
        one_of(GOOD_HEADERS, random)
    } else {
        one_of(BAD_HEADERS, random)
    };
    let mut script = [header, b"\n"].concat();
    for _ in 0..random.below(4) {
        script.extend_from_slice(random.one_of(&["P,0,5\n", "D,0,0\n", "D,1,0\n"]).as_bytes());
    }
    if random.chance(1, 8) {
        damage_byte(&mut script, random);
    }
    (script, Seen::default())
}

/// A head, one byte over and over up to a size, and a tail within that size.
fn filled(&(head, filler, size, tail): &(&str, u8, usize, &str)) -> Vec<u8> {
    let mut script = head.as_bytes().to_vec();
    script.resize(size.max(head.len() + tail.len()) - tail.len(), filler);
    script.extend_from_slice(tail.as_bytes());
    script
}

const FILLED: &[(&str, u8, usize, &str)] = &[
    ("", 0, 0, ""),
    ("\n", 0, 1, ""),
    ("\n", b'\n', 2, ""),
    (",3,1", 0, 4, ""),
    (",3,1\n", 0, 5, ""),
    (",3,1\n", b'\n', 6, ""),
    (",3,1\n", b'K', 6, ""),
    (",3,1\n", b' ', 6, ""),
    (",3,1\nK,0", 0, 8, ""),
    (",3,1\nK,0\n", 0, 9, ""),
    ("B", 0, 1, ""),
    ("", 0, 1, ""),
    ("", b',', 3, ""),
    (",3,1\n\n", 0, 7, ""),
    ("\nB,3,1\n", 0, 7, ""),
    ("\n,3,1\nP,0,5\n", 0, 12, ""),
    (",3,1\n", b'\n', 32767, ""),
    (",3,1\n", b'\n', 32768, ""),
    (",3,1\n", b'\n', 32769, ""),
    (",3,1\n", b'\n', 32768, "K"),
    (",3,1\n", b'\n', 32768, "K,0\n"),
    (",3,1\n", b'\n', 32769, "K,0\n"),
    (",3,1\n", b'\n', 32769, "P"),
    (",3,1\n", b'x', 32768, "\n"),
    (",3,1\n", b'x', 32768, ""),
    (",3,1\n", b'x', 32769, "\n"),
    (",3,1\n", b',', 32768, "\n"),
    (",3,1\nP,0,", b'0', 32768, "\n"),
    (",3,1\nP,0,", b'1', 32768, "\n"),
    (",3,1\nP,0,5\n", b' ', 32768, "\nD,0,0\n"),
    (",3,1\nP,0,5\n", b' ', 32769, "\nD,0,0\n"),
    ("", b'\n', 32768, ""),
    ("", b',', 32768, ""),
    ("", b'B', 32768, "\n"),
    ("B", b' ', 32768, ",3,1\n"),
    ("B,3,", b'0', 32768, "1\n"),
    ("B,", b'0', 32768, "3,1\n"),
    (",3,1\n", 0, 32768, ""),
    ("", b'B', 32769, ""),
    (",3,1\n", b'\n', 65535, ""),
    (",3,1\n", b'\n', 65536, ""),
    (",3,1\n", b'\n', 65541, ""),
    (",3,1\nP,0,5\n", b'\n', 65547, ""),
    (",3,1\n", b'\n', 131077, ""),
];

/// Exactly as many bytes as asked, with an event in each line of four.
fn switching(size: usize) -> Vec<u8> {
    let mut script = b"B,3,100\n".to_vec();
    script.extend(b"K,0\nU,0\n".iter().cycle().take(size - script.len()));
    script
}

/// All places filled, then what is refused for it and what is not.
fn crowded() -> Vec<u8> {
    let tail = "P,0,100000000\nP,0,99999999\nP,0,5\nD,0,0\nD,0,0\nW,0,0\nU,0\nD,0,0\nW,0,0\nU,0\nP,0,5\nK,0\nD,1,127\nW,1,0\nU,1\nD,1,128\n";
    ["B,3,7\n", &"P,0,5\n".repeat(PLACES), tail]
        .concat()
        .into_bytes()
}

/// The scope paper's example.
const EXAMPLE: &[u8] = b"B,3,7\nP,0,412077\nD,0,0\nD,1,0\nD,1,1\nD,1,2\nD,0,1\nW,0,2\nD,0,3\nU,0\nD,2,3\nD,2,1\nD,2,2\nD,2,4\n";

/// The request's bike of three: unit 2 logs its estimate and loses power; the FIRST has it send its SECOND again.
const SILENT: &[u8] = b"R,3,7\nP,0,412077\nD,0,0\nD,1,0\nW,2,0\nU,2\nD,2,0\nD,0,1\nD,0,2\nD,0,3\n";

/// The example with each byte taken away or changed, and with each field changed.
pub fn every_damage() -> Vec<Vec<u8>> {
    let changed = |at: usize, len: usize, text: &[u8]| {
        let mut script = EXAMPLE.to_vec();
        replace(&mut script, at, len, text);
        script
    };
    let mut scripts = Vec::new();
    for at in 0..EXAMPLE.len() {
        scripts
            .extend(["", ",", "\n", "0", "\0", "\r"].map(|text| changed(at, 1, text.as_bytes())));
        if at == 0 || b",\n".contains(&EXAMPLE[at - 1]) {
            scripts.extend(items(FIELDS).map(|text| changed(at, field_len(EXAMPLE, at), text)));
        }
    }
    scripts
}

/// Scripts at every limit, and each malformed header and line by itself, ended and not.
pub fn fixed() -> Vec<Vec<u8>> {
    let mut scripts: Vec<Vec<u8>> = FILLED.iter().map(filled).collect();
    scripts.extend((32766..=32770).map(switching));
    scripts.extend([crowded(), SILENT.to_vec()]);
    for header in items(BAD_HEADERS).chain(items(GOOD_HEADERS)) {
        scripts.push([header, &b"\nP,0,5\n"[..]].concat());
        scripts.push(header.to_vec());
    }
    for line in items(BAD_LINES).chain(items(NO_UNIT_OF_3)) {
        scripts.push([b"R,3,1\nP,0,5\n", line, b"\nD,0,0\nU,0\n"].concat());
        scripts.push([b"R,3,1\nP,0,5\n", line].concat());
    }
    scripts
}
