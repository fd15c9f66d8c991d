//! A part is a kind of section or subsection with its fields, length fields
//! and what is always 0 left out. The written form is built from parts.

use crate::kinds::{self, is_section, owner_of};

/// One part. The fields have the names and the order of the C interface.
#[derive(Clone, Debug, PartialEq, Eq)]
pub enum Part {
    PublicKey {
        modulus_bits: u16,
        exponent: Vec<u8>,
        modulus: Vec<u8>,
        flags: u32,
    },
    Rule {
        rule_id: Vec<u8>,
        flags: u32,
        generated_length: u8,
        key_check: u8,
        symmetric_format: u8,
        asymmetric_format: u8,
    },
    TransportVariant {
        variant: Vec<u8>,
    },
    TransportRule {
        rule_id: Vec<u8>,
    },
    ExportParameters {
        minimum: u8,
        maximum: u8,
        variant: Vec<u8>,
        cv: Vec<u8>,
    },
    SourceRule {
        rule_id: Vec<u8>,
    },
    TokenParameters {
        mask: Vec<u8>,
        template: Vec<u8>,
        label_template: Vec<u8>,
    },
    Name {
        name: Vec<u8>,
    },
    Information {
        flags: u32,
    },
    Protection {
        mac_key: Vec<u8>,
        mac: Vec<u8>,
        mkvp: Vec<u8>,
    },
    Dates {
        flags: u16,
        activation: Vec<u8>,
        expiration: Vec<u8>,
    },
    ApplicationData {
        data: Vec<u8>,
    },
}

/// A length as one byte; asked only of fields that fit.
fn one(field: &[u8]) -> [u8; 1] {
    [u8::try_from(field.len()).expect("the field fits its length field")]
}

/// A length as two bytes; asked only of fields that fit.
fn two(field: &[u8]) -> [u8; 2] {
    let length = u16::try_from(field.len()).expect("the field fits its length field");
    length.to_be_bytes()
}

fn list(fields: &[&[u8]]) -> Vec<Vec<u8>> {
    fields.iter().map(|field| field.to_vec()).collect()
}

impl Part {
    pub fn kind(&self) -> u32 {
        match self {
            Part::PublicKey { .. } => kinds::PUBLIC_KEY,
            Part::Rule { .. } => kinds::RULE,
            Part::TransportVariant { .. } => kinds::TRANSPORT_VARIANT,
            Part::TransportRule { .. } => kinds::TRANSPORT_RULE,
            Part::ExportParameters { .. } => kinds::EXPORT_PARAMETERS,
            Part::SourceRule { .. } => kinds::SOURCE_RULE,
            Part::TokenParameters { .. } => kinds::TOKEN_PARAMETERS,
            Part::Name { .. } => kinds::NAME,
            Part::Information { .. } => kinds::INFORMATION,
            Part::Protection { .. } => kinds::PROTECTION,
            Part::Dates { .. } => kinds::DATES,
            Part::ApplicationData { .. } => kinds::APPLICATION_DATA,
        }
    }

    pub fn is_section(&self) -> bool {
        is_section(self.kind())
    }

    /// Whether each field has its fixed length, or one that its length field
    /// can state, and mask and template are of like length (else 24).
    pub fn fields_fit(&self) -> bool {
        match self {
            Part::PublicKey {
                exponent, modulus, ..
            } => exponent.len() <= 0xFFFF && modulus.len() <= 0xFFFF,
            Part::Rule { rule_id, .. }
            | Part::TransportRule { rule_id }
            | Part::SourceRule { rule_id } => rule_id.len() == 8,
            Part::TransportVariant { variant } => variant.len() <= 0xFF,
            Part::ExportParameters { variant, cv, .. } => variant.len() <= 0xFF && cv.len() <= 0xFF,
            Part::TokenParameters {
                mask,
                template,
                label_template,
            } => mask.len() <= 0xFF && mask.len() == template.len() && label_template.len() <= 0xFF,
            Part::Name { name } => name.len() == 64,
            Part::Information { .. } => true,
            Part::Protection { mac_key, mac, mkvp } => {
                mac_key.len() == 32 && mac.len() == 8 && mkvp.len() == 16
            }
            Part::Dates {
                activation,
                expiration,
                ..
            } => activation.len() == 4 && expiration.len() == 4,
            Part::ApplicationData { data } => data.len() <= 0xFFFF,
        }
    }

    /// The lent fields that are runs of bytes, in order.
    pub fn runs_mut(&mut self) -> Vec<&mut Vec<u8>> {
        match self {
            Part::PublicKey {
                exponent, modulus, ..
            } => vec![exponent, modulus],
            Part::Rule { rule_id, .. }
            | Part::TransportRule { rule_id }
            | Part::SourceRule { rule_id } => vec![rule_id],
            Part::TransportVariant { variant } => vec![variant],
            Part::ExportParameters { variant, cv, .. } => vec![variant, cv],
            Part::TokenParameters {
                mask,
                template,
                label_template,
            } => vec![mask, template, label_template],
            Part::Name { name } => vec![name],
            Part::Information { .. } => vec![],
            Part::Protection { mac_key, mac, mkvp } => vec![mac_key, mac, mkvp],
            Part::Dates {
                activation,
                expiration,
                ..
            } => vec![activation, expiration],
            Part::ApplicationData { data } => vec![data],
        }
    }

    /// How many bytes the part takes, without subsections that follow it.
    pub fn size(&self) -> usize {
        match self {
            Part::PublicKey {
                exponent, modulus, ..
            } => 16 + exponent.len() + modulus.len(),
            Part::Rule { .. } => 20,
            Part::TransportVariant { variant } => 8 + variant.len(),
            Part::TransportRule { .. } | Part::SourceRule { .. } => 14,
            Part::ExportParameters { variant, cv, .. } => 12 + variant.len() + cv.len(),
            Part::TokenParameters {
                mask,
                label_template,
                ..
            } => 10 + 2 * mask.len() + label_template.len(),
            Part::Name { .. } => 68,
            Part::Information { .. } => 10,
            Part::Protection { .. } => 62,
            Part::Dates { .. } => 16,
            Part::ApplicationData { data } => 6 + data.len(),
        }
    }

    /// All fields in the order of document 01, `length` as given. Asked only
    /// of parts whose fields fit.
    pub fn fields(&self, length: u16) -> Vec<Vec<u8>> {
        let kind = self.kind().to_be_bytes();
        let length = length.to_be_bytes();
        let mut fields = if self.is_section() {
            vec![vec![kind[1]], vec![0], length.to_vec()]
        } else {
            vec![kind[2..4].to_vec(), length.to_vec(), vec![0]]
        };
        let own = if self.is_section() {
            self.section_fields()
        } else {
            self.subsection_fields()
        };
        fields.extend(own);
        fields
    }

    /// A section's fields after the first three.
    fn section_fields(&self) -> Vec<Vec<u8>> {
        match self {
            Part::PublicKey {
                modulus_bits,
                exponent,
                modulus,
                flags,
            } => list(&[
                &[0, 0],
                &two(exponent),
                &modulus_bits.to_be_bytes(),
                &two(modulus),
                exponent,
                modulus,
                &flags.to_be_bytes(),
            ]),
            Part::Rule {
                rule_id,
                flags,
                generated_length,
                key_check,
                symmetric_format,
                asymmetric_format,
            } => list(&[
                rule_id,
                &flags.to_be_bytes(),
                &[*generated_length],
                &[*key_check],
                &[*symmetric_format],
                &[*asymmetric_format],
            ]),
            Part::Name { name } => list(&[name]),
            Part::Information { flags } => list(&[&[0, 0], &flags.to_be_bytes()]),
            Part::ApplicationData { data } => list(&[&two(data), data]),
            _ => unreachable!("asked of sections only"),
        }
    }

    /// A subsection's fields after the first three.
    fn subsection_fields(&self) -> Vec<Vec<u8>> {
        match self {
            Part::TransportVariant { variant } => list(&[&[0, 0], &one(variant), variant]),
            Part::TransportRule { rule_id } | Part::SourceRule { rule_id } => {
                list(&[&[0], rule_id])
            }
            Part::ExportParameters {
                minimum,
                maximum,
                variant,
                cv,
            } => list(&[
                &[0, 0],
                &[0],
                &[*minimum],
                &[*maximum],
                &one(variant),
                variant,
                &one(cv),
                cv,
            ]),
            Part::TokenParameters {
                mask,
                template,
                label_template: label,
            } => list(&[
                &[0, 0],
                &[0],
                &one(mask),
                mask,
                template,
                &one(label),
                label,
            ]),
            Part::Protection { mac_key, mac, mkvp } => list(&[&[0], mac_key, mac, mkvp]),
            Part::Dates {
                flags,
                activation,
                expiration,
            } => list(&[&[0], &flags.to_be_bytes(), activation, expiration]),
            _ => unreachable!("asked of subsections only"),
        }
    }
}

/// The written form of an identifier and parts. None where 24 or 25 would
/// refuse a part, or a length can't be stated in its length field.
pub fn written(id: u8, parts: &[Part]) -> Option<Vec<u8>> {
    let total = 8 + parts.iter().map(Part::size).sum::<usize>();
    let mut bytes = vec![id, 0];
    bytes.extend(u16::try_from(total).ok()?.to_be_bytes());
    bytes.extend([0; 4]);
    let mut section = None;
    for (index, part) in parts.iter().enumerate() {
        if part.is_section() {
            section = Some(part.kind());
        }
        if !part.fields_fit() || section != Some(owner_of(part.kind())) {
            return None;
        }
        let length = part.size() + size_of_subsections(part, &parts[index + 1..]);
        let fields = part.fields(u16::try_from(length).ok()?);
        bytes.extend(fields.concat());
    }
    Some(bytes)
}

/// The bytes of the subsections that follow a section; 0 for a subsection.
fn size_of_subsections(part: &Part, following: &[Part]) -> usize {
    if !part.is_section() {
        return 0;
    }
    following
        .iter()
        .take_while(|next| !next.is_section())
        .map(Part::size)
        .sum()
}
