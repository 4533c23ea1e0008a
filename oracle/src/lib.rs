//! An independent judge of the desk program: it reads the same commands and judges the answers.
//! It also makes seeded command scripts, and can answer a script by its own means.

pub mod balance;
pub mod bench;
pub mod blanks;
pub mod candidates;
pub mod desk;
pub mod files;
pub mod floats;
pub mod folder;
pub mod judge;
pub mod lengths;
pub mod maker;
pub mod menus;
pub mod off;
pub mod off_texts;
pub mod point;
pub mod program;
pub mod refusals;
pub mod stl;
pub mod turns;
pub mod verdict;
pub mod words;
