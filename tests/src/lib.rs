//! A second, separate reader and writer of trusted blocks, written from
//! documents 01 and 02 alone, for comparison with the proved ones.

/// What each kind of section and subsection must hold.
pub mod checks;
/// An optimised reader with the same answers as [`reader`].
pub mod fast;
/// Forms of Rule IDs, label templates and dates; large numbers.
pub mod forms;
/// Any bytes as trials of the library, for the fuzzer.
pub mod fuzzed;
/// Generated tokens, legal and damaged, and sequences of writer calls.
pub mod generate;
/// Numbers of the kinds, and their least lengths.
pub mod kinds;
/// The proved library, through its C calls.
pub mod library;
/// The proved library's writer, through its C calls.
pub mod library_writer;
/// The listing of a token.
pub mod listing;
/// The names in a document that are not there.
pub mod names;
/// Parts with their fields, and the written form of a choice of parts.
pub mod parts;
/// A small generator of repeatable random numbers.
pub mod random;
/// The reading of tokens and drafts, and the table.
pub mod reader;
/// The files of samples/, built by the writer.
pub mod sample_files;
/// Tokens written out by hand.
pub mod samples;
/// Views of fields, and the walk from row to row.
pub mod views;
/// The writer on a lent draft.
pub mod writer;
