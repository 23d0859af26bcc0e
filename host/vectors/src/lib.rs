//! Published volumes, for whoever writes a reader of the format: small images of every kind as text,
//! and beside each what stands on it.
//!
//! - `text`: an image as text, and back;
//! - `json`, `sha256`: what the statements are written with;
//! - `statement`: a volume of the folder, and what is said of it;
//! - `maker`: volumes under way;
//! - `sound`, `faults`, `states`: the volumes;
//! - `folder`: all of them in chapters, with the README.

#![forbid(unsafe_code)]

mod faults;
pub mod folder;
pub mod json;
mod maker;
pub mod sha256;
mod sound;
mod statement;
mod states;
pub mod text;

pub use statement::{Stands, Vector};
