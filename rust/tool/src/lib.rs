//! The command-line tool over the proved library: checks, draws, exports and pictures surveys, reckons their volume, shows ways and calendars,
//! converts old corner tables and writes example surveys.
//!
//! - [`commands`]: the table of commands with their help, and [`run`], which picks one; [`arguments`] says what they take, and what is wrong with it.
//! - [`files`]: a survey as the files of a directory; [`convert`]: corner tables of old; [`failure`]: what can go wrong, and the exit status.
//! - [`drawing`]: what a command draws, at the clearance of its survey or by a calendar; [`calendar`]: a calendar in words.
//! - [`formats`]: a mesh as document 01's listing, OBJ and PLY; [`facts`]: what `info` and `volume` say of a survey; [`way`]: what `way` says of it;
//!   [`json`]: an answer as an object.
//! - [`examples`]: surveys by name. [`shapes`] gives basins as distance functions, [`refine`] sounds them over an octree.
//! - [`view`], [`shading`], [`raster`], [`picture`], [`svg`]: from a mesh to a picture file.

pub mod arguments;
pub mod calendar;
pub mod commands;
pub mod convert;
pub mod drawing;
pub mod examples;
pub mod facts;
pub mod failure;
pub mod files;
pub mod formats;
pub mod json;
pub mod picture;
pub mod raster;
pub mod refine;
pub mod shading;
pub mod shapes;
pub mod svg;
pub mod view;
pub mod way;

pub use commands::run;
