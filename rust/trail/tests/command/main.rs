//! Runs the built command with good, bad and hostile input.
#![forbid(unsafe_code)]

mod anchors;
mod answers;
mod approaches;
mod clock;
mod dearest;
mod exports;
mod folder;
mod install;
mod links;
mod many;
mod pages;
mod pictures;
mod pictures_asked;
mod pictures_several;
mod readme;
mod refusals;
mod sharing;
mod shift;
mod storing;
mod svg;
mod texts;
mod usage;
mod visits;
