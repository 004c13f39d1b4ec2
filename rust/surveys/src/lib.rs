//! Surveys to draw, and plain readings of the documents to judge a drawing by.
//!
//! - [`document`]: the surveys of document 01 and a few small ones, with what is known of their drawings.
//! - [`resounded`]: surveys with amendments of which the same is known.
//! - [`volumes`]: surveys of which the space inside can be said by hand.
//! - [`generate`]: random lawful surveys, each from one seed.
//! - [`amendments`]: random days and amendments that leave the soundings in force as they are.
//! - [`calendars`]: calendars, and random ones asked at a minute, each with the clearance in force or the refusal.
//! - [`seasons`]: calendars asked at a minute of which the same can be said by hand.
//! - [`ways`]: surveys of which the way from a corner to another can be said by hand, and the order of its refusals.
//! - [`asked`]: random questions about ways, and random surveys whose ways are long.
//! - [`convoys`]: convoys of which the way can be said by hand, and the order of their refusals.
//! - [`boats`]: random convoys, asked about ways.
//! - [`sized`]: surveys of a given number of splits, a kind for each shape that a drawing may be slow on.
//! - [`damage`]: random damaged surveys, each with the refusal it must meet.
//! - [`lent`]: what stands in lent slices before a drawing, to see what it touches.
//! - [`references`]: points to reckon the space inside a drawing from, in the box and beyond it.
//! - [`tally`]: how many surveys of a comparison were drawn, how many of these are amended, and how many refused at the
//!   box.
//! - [`refusals`], [`plain`], [`joints`], [`closing`], [`water`]: the documents' checks, their edges, points and records in force,
//!   all ways over wet corners, "What closing says" and the space inside, written for the reader and not for speed, and with
//!   nothing shared with any drawing.

pub mod amendments;
pub mod asked;
pub mod boats;
pub mod calendars;
pub mod closing;
pub mod convoys;
pub mod damage;
pub mod document;
mod expected;
pub mod generate;
pub mod joints;
pub mod lent;
mod long_loop;
pub mod plain;
pub mod random;
pub mod references;
pub mod refusals;
pub mod resounded;
pub mod seasons;
pub mod sized;
mod soundings;
pub mod survey;
pub mod tally;
mod trees;
pub mod volumes;
pub mod water;
pub mod ways;

pub use survey::Survey;
