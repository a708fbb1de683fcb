//! The verified core and the independent Rust implementation, compared: call by call, history by history, script by script.

#![deny(unsafe_code)]

pub mod alone;
pub mod buffers;
pub mod call;
pub mod card_damage;
pub mod card_differential;
pub mod card_generate;
pub mod card_histories;
pub mod card_history;
pub mod card_manner;
pub mod card_shrink;
pub mod card_tally;
pub mod card_world;
pub mod cases;
#[allow(unsafe_code)]
pub mod core;
pub mod damage;
pub mod demand3;
pub mod differential;
pub mod entry;
pub mod format;
pub mod generate;
pub mod histories;
pub mod history;
pub mod history_shrink;
pub mod last_rounds;
pub mod listed;
pub mod made;
pub mod manner;
pub mod names;
pub mod old_bound;
pub mod places;
pub mod play;
pub mod program;
pub mod random;
pub mod reached;
pub mod records;
pub mod row_text;
pub mod rows;
pub mod same_calls;
pub mod same_listings;
pub mod scene;
pub mod script_damage;
pub mod scripts;
pub mod shrink;
pub mod shrink_call;
pub mod side;
pub mod slips;
pub mod staged;
pub mod sweep;
pub mod trouble;
pub mod unit_card;
pub mod votes;
pub mod world;
