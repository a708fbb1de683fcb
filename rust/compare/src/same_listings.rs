//! Every script in which no line gave 6, with the bound that was before request 3, prints the same listing.

use crate::format::OLD_MAX_MILEAGE;
use crate::history::{in_words, missing};
use crate::places;
use crate::program::Feed;
use crate::random::Random;
use crate::script_damage;
use crate::scripts::{stored, Player, Players, KINDS};

/// The listing of a script as it was before.
pub type Before<'a> = &'a dyn Fn(&[u8]) -> Vec<u8>;

/// Proposals above the old bound, and above today's, on which no line gives 6: the unit is down, or there is none, the line is malformed,
/// or the number is one of a message.
const BY_HAND: &[&str] = &[
    "B,3,7\nK,0\nP,0,10000000\nP,0,99999999\nP,0,100000000\nP,0,4294967295\nU,0\nP,0,9999999\n",
    "R,3,7\nP,0,9999999\nW,1,0\nP,1,10000000\nU,1\nD,1,0\nD,0,0\nD,2,0\nK,0\nP,0,99999999\nU,0\n",
    "R,4,7\nK,3\nP,3,45000000\nP,0,5\nD,0,0\nD,1,0\nD,2,0\nP,3,10000001\nD,0,1\nD,0,2\nD,0,3\n",
    "B,3,7\nP,3,10000000\nP,4,99999999\nP,0,10000000,\nP,0,010000000\nP,0,10000000 \np,0,10000000\nP,0,5\n",
    "B,3,7\nD,0,10000000\nW,0,99999999\nP,0,9999999\nD,0,100000000\nK,0\nD,0,10000000\nP,0,10000000",
];

/// All places filled, and then a proposal above the old bound for a unit that is down.
fn crowded() -> Vec<u8> {
    [
        "B,3,7\n",
        &"P,0,9999999\n".repeat(130),
        "K,0\nP,0,10000000\nU,0\nP,0,0\n",
    ]
    .concat()
    .into_bytes()
}

/// The number that each line of a listing gives.
fn numbers(listing: &str) -> impl Iterator<Item = &str> {
    listing
        .lines()
        .map(|line| line.split(',').nth(3).unwrap_or(""))
}

fn gives_6(listing: &[u8]) -> bool {
    numbers(&String::from_utf8_lossy(listing)).any(|number| number == "6")
}

fn is_above(line: &str) -> bool {
    let fields = line
        .strip_prefix("P,")
        .and_then(|rest| rest.split_once(','));
    let mileage = fields.and_then(|(_, mileage)| mileage.parse::<u32>().ok());
    mileage.is_some_and(|mileage| mileage > OLD_MAX_MILEAGE)
}

/// How many lines propose more than was possible, to a unit that is down.
fn unheard(script: &[u8], listing: &[u8]) -> u64 {
    let [script, listing] = [script, listing].map(String::from_utf8_lossy);
    let lines = script.split('\n').zip(numbers(&listing));
    let found = lines.filter(|&(line, number)| is_above(line) && number == "9");
    found.count() as u64
}

/// Scripts, and where they come from.
type Source = (&'static str, Vec<Vec<u8>>);

fn sources(hundreds: u64, random: &mut Random) -> Result<[Source; 4], String> {
    let by_hand = BY_HAND.iter().map(|script| script.as_bytes().to_vec());
    let makes = KINDS
        .iter()
        .flat_map(|&(make, share)| vec![make; (share * hundreds) as usize]);
    Ok([
        ("by hand", by_hand.chain([crowded()]).collect()),
        ("at limits", script_damage::fixed()),
        ("stored", stored(&places::stored_scripts())?),
        ("made", makes.map(|make| make(random).0).collect()),
    ])
}

/// The program beside the listing as it was; some scripts from everywhere must be compared.
pub fn run(
    program: Player,
    before: Before,
    hundreds: u64,
    random: &mut Random,
) -> Result<String, String> {
    let old = |script: &[u8], _: Feed| Ok(before(script));
    // Where a line gave 6 the program may print something else.
    let new = |script: &[u8], feed: Feed| match before(script) {
        listing if gives_6(&listing) => Ok(listing),
        _ => program(script, feed),
    };
    let players = Players(&new, &old);
    let (mut counts, mut above, mut left_out) = (Vec::new(), 0, 0);
    for (name, scripts) in sources(hundreds, random)? {
        let mut same = 0;
        for script in &scripts {
            let listing = players.listing(script, Feed::Whole)?;
            if gives_6(&listing) {
                left_out += 1;
            } else {
                same += 1;
                above += unheard(script, &listing);
            }
        }
        counts.push((name, same));
    }
    counts.push((
        "proposals above the old bound to a unit that is down",
        above,
    ));
    let missing = missing(&counts);
    if !missing.is_empty() {
        return Err(format!("never compared: {}", missing.join(", ")));
    }
    Ok(format!(
        "scripts that print the same: {}; left out, as a line gave 6: {left_out}",
        in_words(&counts)
    ))
}
