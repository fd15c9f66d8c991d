//! The proved library's writer, called as a host program in C calls it. The
//! calls have the names and parameters of [`crate::writer`].

use crate::parts::Part;
use crate::reader::Answer;

/// The C calls as they are. Result: 0 or the refusal; `second`: the draft's
/// length or the place.
pub mod calls {
    extern "C" {
        pub fn tb_start(draft: *mut u8, draft_len: usize, id: u8, second: *mut u32) -> u32;
        pub fn tb_add_public_key(
            draft: *mut u8,
            draft_len: usize,
            modulus_bits: u16,
            exponent: *const u8,
            exponent_len: usize,
            modulus: *const u8,
            modulus_len: usize,
            flags: u32,
            second: *mut u32,
        ) -> u32;
        pub fn tb_add_rule(
            draft: *mut u8,
            draft_len: usize,
            rule_id: *const u8,
            rule_id_len: usize,
            flags: u32,
            generated_length: u8,
            key_check: u8,
            symmetric_format: u8,
            asymmetric_format: u8,
            second: *mut u32,
        ) -> u32;
        pub fn tb_add_transport_variant(
            draft: *mut u8,
            draft_len: usize,
            variant: *const u8,
            variant_len: usize,
            second: *mut u32,
        ) -> u32;
        pub fn tb_add_transport_rule(
            draft: *mut u8,
            draft_len: usize,
            rule_id: *const u8,
            rule_id_len: usize,
            second: *mut u32,
        ) -> u32;
        pub fn tb_add_export_parameters(
            draft: *mut u8,
            draft_len: usize,
            minimum: u8,
            maximum: u8,
            variant: *const u8,
            variant_len: usize,
            cv: *const u8,
            cv_len: usize,
            second: *mut u32,
        ) -> u32;
        pub fn tb_add_source_rule(
            draft: *mut u8,
            draft_len: usize,
            rule_id: *const u8,
            rule_id_len: usize,
            second: *mut u32,
        ) -> u32;
        pub fn tb_add_token_parameters(
            draft: *mut u8,
            draft_len: usize,
            mask: *const u8,
            mask_len: usize,
            template: *const u8,
            template_len: usize,
            label_template: *const u8,
            label_template_len: usize,
            second: *mut u32,
        ) -> u32;
        pub fn tb_add_name(
            draft: *mut u8,
            draft_len: usize,
            name: *const u8,
            name_len: usize,
            second: *mut u32,
        ) -> u32;
        pub fn tb_add_information(
            draft: *mut u8,
            draft_len: usize,
            flags: u32,
            second: *mut u32,
        ) -> u32;
        pub fn tb_add_protection(
            draft: *mut u8,
            draft_len: usize,
            mac_key: *const u8,
            mac_key_len: usize,
            mac: *const u8,
            mac_len: usize,
            mkvp: *const u8,
            mkvp_len: usize,
            second: *mut u32,
        ) -> u32;
        pub fn tb_add_dates(
            draft: *mut u8,
            draft_len: usize,
            flags: u16,
            activation: *const u8,
            activation_len: usize,
            expiration: *const u8,
            expiration_len: usize,
            second: *mut u32,
        ) -> u32;
        pub fn tb_add_application_data(
            draft: *mut u8,
            draft_len: usize,
            data: *const u8,
            data_len: usize,
            second: *mut u32,
        ) -> u32;
        pub fn tb_finish(draft: *const u8, draft_len: usize, second: *mut u32) -> u32;
    }
}

/// What `second` holds before a call; no answer gives it.
const NOT_GIVEN: u32 = u32::MAX;

/// Writes the eight header bytes of an empty draft.
pub fn start(draft: &mut [u8], id: u8) -> Answer {
    let mut second = NOT_GIVEN;
    // SAFETY: the pointers are those of live borrows, with their lengths.
    let number = unsafe { calls::tb_start(draft.as_mut_ptr(), draft.len(), id, &mut second) };
    Answer { number, second }
}

/// Adds a part at the draft's end; a subsection joins the last section.
#[inline]
pub fn add(draft: &mut [u8], part: &Part) -> Answer {
    add_lending(draft, part, lent_fields(part))
}

/// The same, the fields that are runs of bytes lent from elsewhere; the
/// numbers are the part's.
#[inline]
pub fn add_lending(draft: &mut [u8], part: &Part, fields: [&[u8]; 3]) -> Answer {
    let fields = fields.map(|field| (field.as_ptr(), field.len()));
    // SAFETY: all pointers are those of live borrows, with their lengths, and
    // nothing else holds the draft meanwhile.
    unsafe { add_at((draft.as_mut_ptr(), draft.len()), part, fields) }
}

/// The draft's own fault, else the reading's 20, else the length.
pub fn finish(draft: &[u8]) -> Answer {
    let mut second = NOT_GIVEN;
    // SAFETY: as in `start`.
    let number = unsafe { calls::tb_finish(draft.as_ptr(), draft.len(), &mut second) };
    Answer { number, second }
}

/// The fields of a part that are runs of bytes, in order, then empty ones.
#[inline]
pub fn lent_fields(part: &Part) -> [&[u8]; 3] {
    match part {
        Part::PublicKey {
            exponent, modulus, ..
        } => [exponent, modulus, &[]],
        Part::Rule { rule_id, .. }
        | Part::TransportRule { rule_id }
        | Part::SourceRule { rule_id } => [rule_id, &[], &[]],
        Part::TransportVariant { variant } => [variant, &[], &[]],
        Part::ExportParameters { variant, cv, .. } => [variant, cv, &[]],
        Part::TokenParameters {
            mask,
            template,
            label_template,
        } => [mask, template, label_template],
        Part::Name { name } => [name, &[], &[]],
        Part::Information { .. } => [&[], &[], &[]],
        Part::Protection { mac_key, mac, mkvp } => [mac_key, mac, mkvp],
        Part::Dates {
            activation,
            expiration,
            ..
        } => [activation, expiration, &[]],
        Part::ApplicationData { data } => [data, &[], &[]],
    }
}

/// A pointer to a draft, and its length.
type Draft = (*mut u8, usize);
/// Pointers to lent fields, and their lengths.
type Fields = [(*const u8, usize); 3];

/// Adds a part whose fields and draft lie at these pointers.
///
/// # Safety
/// Each pointer has as many bytes as the length with it says, nothing else
/// holds the draft's; a pointer with length 0 may be any, null too.
#[inline]
pub unsafe fn add_at(draft: Draft, part: &Part, fields: Fields) -> Answer {
    let mut second = NOT_GIVEN;
    let number = if part.is_section() {
        add_section(draft, part, fields, &mut second)
    } else {
        add_subsection(draft, part, fields, &mut second)
    };
    Answer { number, second }
}

#[inline]
unsafe fn add_section((draft, len): Draft, part: &Part, fields: Fields, second: &mut u32) -> u32 {
    let [(a, a_len), (b, b_len), _] = fields;
    match part {
        Part::PublicKey {
            modulus_bits: bits,
            flags,
            ..
        } => calls::tb_add_public_key(draft, len, *bits, a, a_len, b, b_len, *flags, second),
        Part::Rule {
            flags,
            generated_length,
            key_check,
            symmetric_format,
            asymmetric_format,
            ..
        } => calls::tb_add_rule(
            draft,
            len,
            a,
            a_len,
            *flags,
            *generated_length,
            *key_check,
            *symmetric_format,
            *asymmetric_format,
            second,
        ),
        Part::Name { .. } => calls::tb_add_name(draft, len, a, a_len, second),
        Part::Information { flags } => calls::tb_add_information(draft, len, *flags, second),
        Part::ApplicationData { .. } => {
            calls::tb_add_application_data(draft, len, a, a_len, second)
        }
        _ => unreachable!("asked of sections only"),
    }
}

#[inline]
unsafe fn add_subsection(
    (draft, len): Draft,
    part: &Part,
    fields: Fields,
    second: &mut u32,
) -> u32 {
    let [(a, a_len), (b, b_len), (c, c_len)] = fields;
    match part {
        Part::TransportVariant { .. } => {
            calls::tb_add_transport_variant(draft, len, a, a_len, second)
        }
        Part::TransportRule { .. } => calls::tb_add_transport_rule(draft, len, a, a_len, second),
        Part::ExportParameters {
            minimum: least,
            maximum: most,
            ..
        } => calls::tb_add_export_parameters(draft, len, *least, *most, a, a_len, b, b_len, second),
        Part::SourceRule { .. } => calls::tb_add_source_rule(draft, len, a, a_len, second),
        Part::TokenParameters { .. } => {
            calls::tb_add_token_parameters(draft, len, a, a_len, b, b_len, c, c_len, second)
        }
        Part::Protection { .. } => {
            calls::tb_add_protection(draft, len, a, a_len, b, b_len, c, c_len, second)
        }
        Part::Dates { flags, .. } => {
            calls::tb_add_dates(draft, len, *flags, a, a_len, b, b_len, second)
        }
        _ => unreachable!("asked of subsections only"),
    }
}
