//! Document 01, "Cross-CSD realignment and booking on T2S", with asks 1 to 6 of document 02, written from
//! their text alone. It is the oracle of the proved library and its peer in speed, and shares no line with it.
//!
//! The model: [`directory`] (the record), [`register`] (entries, soundness, look-ups), [`links`] (those of a
//! CSD for a security, with their days), [`walk`], [`chain`], [`booking`], [`desk`] (single calls), [`command`],
//! [`text`] and [`transcript`] (the program).
//! What it is tried with: [`trial`].

#![deny(unsafe_code)]

pub mod booking;
pub mod chain;
pub mod command;
pub mod desk;
pub mod directory;
pub mod isin;
pub mod links;
pub mod numbers;
pub mod proved;
pub mod refusal;
pub mod register;
pub mod text;
pub mod transcript;
pub mod trial;
pub mod walk;

pub use transcript::transcript;
