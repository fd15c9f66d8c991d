//! Generated tokens and calls. The same seed gives the same ones.

/// Sequences of writer calls.
pub mod calls;
/// Tokens cut into fields, to be changed and put together again.
pub mod cut;
/// Damaged tokens, with one fault or several.
pub mod damage;
/// Single faults in what the fields hold, each with the answer it gives.
pub mod faults;
/// Single faults in the public key, in the lengths of 0003 and 0005, in dates.
pub mod field_faults;
/// Single faults in the forms of Rule IDs and label templates.
pub mod form_faults;
/// Legal tokens.
pub mod legal;
/// Single faults in lengths and in which parts are there.
pub mod part_faults;
/// Legal values of single fields.
pub mod values;
