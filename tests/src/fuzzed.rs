//! Any bytes taken as a trial of the library beside the second reader and
//! writer. The fuzzer makes the bytes; what it finds is tried again by tests.

/// Bytes as a sequence of writer calls, and back.
pub mod coded;
/// Bytes as a token: the reading, tables, steps, rows, views, and the writer
/// on its parts.
pub mod reading;
/// A sequence of writer calls: answers and all bytes.
pub mod writing;
