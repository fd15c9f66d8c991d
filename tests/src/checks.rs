//! The tests inside one section or subsection, in order: the inner lengths,
//! then the fields by rising offset. A fault has its place by request 107: the
//! first byte of the field tested, or the part's `length`, or the byte at which
//! no form can go on.

use crate::forms;
use crate::kinds::{
    APPLICATION_DATA, DATES, EXPORT_PARAMETERS, INFORMATION, LENGTH, NAME, PROTECTION, PUBLIC_KEY,
    RULE, SOURCE_RULE, TOKEN_PARAMETERS, TRANSPORT_RULE, TRANSPORT_VARIANT,
};
use crate::reader::number;

/// A fault's number, and where it is, from the part's start.
pub struct Fault {
    pub number: u32,
    pub offset: usize,
}

type Check = Result<(), Fault>;

fn ensure(condition: bool, number: u32, offset: usize) -> Check {
    if condition {
        Ok(())
    } else {
        Err(Fault { number, offset })
    }
}

/// A field: where it begins in its part, and its bytes.
struct Field<'a> {
    offset: usize,
    bytes: &'a [u8],
}

/// The field of this many bytes at an offset of the part.
fn field(part: &[u8], offset: usize, length: usize) -> Field<'_> {
    Field {
        offset,
        bytes: &part[offset..offset + length],
    }
}

impl Field<'_> {
    fn number(&self) -> usize {
        number(self.bytes)
    }

    /// Fails at the field's first byte.
    fn ensure(&self, condition: bool, number: u32) -> Check {
        ensure(condition, number, self.offset)
    }

    /// A reserved field.
    fn ensure_zero(&self) -> Check {
        self.ensure(all_zero(self.bytes), 10)
    }

    /// Fails at the first byte at which no legal form can go on.
    fn ensure_form(&self, is_form: fn(&[u8]) -> bool) -> Check {
        match forms::first_wrong(self.bytes, is_form) {
            None => Ok(()),
            Some(index) => ensure(false, 17, self.offset + index),
        }
    }
}

pub fn all_zero(bytes: &[u8]) -> bool {
    bytes.iter().all(|byte| *byte == 0)
}

/// The lengths of keys: 8, 16 or 24.
fn is_key_length(length: usize) -> bool {
    [8, 16, 24].contains(&length)
}

/// The inner length and the fixed fields of a section whose length is at
/// least its least one.
pub fn section(kind: u32, part: &[u8]) -> Check {
    match kind {
        PUBLIC_KEY => public_key(part),
        RULE => rule(part),
        NAME => ensure(part.len() == 68, 15, LENGTH),
        INFORMATION => {
            let (reserved, flags) = (field(part, 4, 2), field(part, 6, 4));
            reserved.ensure_zero()?;
            flags.ensure(matches!(flags.bytes, [0, 0, 0, 0 | 1]), 11)
        }
        APPLICATION_DATA => {
            let count = field(part, 4, 2);
            ensure(part.len() == 6 + count.number(), 15, LENGTH)
        }
        _ => unreachable!("the reader asks for listed sections only"),
    }
}

/// The version, the inner length and the fields of a subsection whose length
/// is at least its least one.
pub fn subsection(kind: u32, part: &[u8], external: bool) -> Check {
    let version = field(part, 4, 1);
    version.ensure(version.number() == 0, 8)?;
    match kind {
        TRANSPORT_VARIANT => {
            let count = field(part, 7, 1);
            ensure(part.len() == 8 + count.number(), 12, LENGTH)?;
            field(part, 5, 2).ensure_zero()
        }
        TRANSPORT_RULE | SOURCE_RULE => {
            ensure(part.len() == 14, 12, LENGTH)?;
            field(part, 5, 1).ensure_zero()?;
            field(part, 6, 8).ensure_form(forms::is_rule_id)
        }
        EXPORT_PARAMETERS => export_parameters(part),
        TOKEN_PARAMETERS => token_parameters(part),
        PROTECTION => {
            ensure(part.len() == 62, 12, LENGTH)?;
            field(part, 5, 1).ensure_zero()?;
            let mkvp = field(part, 46, 16);
            mkvp.ensure(!external || all_zero(mkvp.bytes), 21)
        }
        DATES => dates(part),
        _ => unreachable!("the reader asks for listed subsections only"),
    }
}

fn public_key(part: &[u8]) -> Check {
    let [x, bits, y] = [6, 8, 10].map(|offset| field(part, offset, 2));
    ensure(part.len() == 16 + x.number() + y.number(), 15, LENGTH)?;
    field(part, 4, 2).ensure_zero()?;
    let exponent = field(part, 12, x.number());
    let modulus = field(part, 12 + x.number(), y.number());
    let flags = field(part, 12 + x.number() + y.number(), 4);
    x.ensure((1..=512).contains(&x.number()), 16)?;
    bits.ensure((512..=4096).contains(&bits.number()), 16)?;
    y.ensure(y.number() == bits.number().div_ceil(8), 16)?;
    let significant = forms::significant_bits(modulus.bytes);
    modulus.ensure(significant == bits.number(), 16)?;
    modulus.ensure(forms::is_odd(modulus.bytes), 16)?;
    exponent.ensure(forms::is_odd(exponent.bytes), 16)?;
    exponent.ensure(forms::is_less(exponent.bytes, modulus.bytes), 16)?;
    flags.ensure(matches!(flags.bytes, [0 | 0x80 | 0xC0, 0, 0, 0]), 11)
}

fn rule(part: &[u8]) -> Check {
    field(part, 4, 8).ensure_form(forms::is_rule_id)?;
    let flags = field(part, 12, 4);
    let [generated, key_check, symmetric, asymmetric] =
        [16, 17, 18, 19].map(|offset| field(part, offset, 1));
    flags.ensure(matches!(flags.bytes, [0, 0, 0, 0 | 1]), 11)?;
    let export = flags.bytes[3] == 1;
    generated.ensure(export || is_key_length(generated.number()), 11)?;
    key_check.ensure(key_check.number() <= 2, 11)?;
    symmetric.ensure(symmetric.number() == usize::from(export), 11)?;
    asymmetric.ensure(asymmetric.number() <= 2, 11)
}

fn export_parameters(part: &[u8]) -> Check {
    let [flags, minimum, maximum, x] = [7, 8, 9, 10].map(|offset| field(part, offset, 1));
    // The byte that gives the CV's length may lie outside by what x says.
    ensure(11 + x.number() < part.len(), 12, LENGTH)?;
    let c = field(part, 11 + x.number(), 1);
    ensure(part.len() == 12 + x.number() + c.number(), 12, LENGTH)?;
    field(part, 5, 2).ensure_zero()?;
    flags.ensure(flags.number() == 0, 11)?;
    minimum.ensure(is_key_length(minimum.number()), 18)?;
    maximum.ensure(is_key_length(maximum.number()), 18)?;
    maximum.ensure(minimum.number() <= maximum.number(), 18)?;
    x.ensure(x.number() == 0 || x.number() >= 8, 18)?;
    x.ensure(x.number() == 0 || x.number() >= maximum.number(), 18)?;
    c.ensure([0, 8, 16].contains(&c.number()), 18)
}

fn token_parameters(part: &[u8]) -> Check {
    let [flags, m] = [7, 8].map(|offset| field(part, offset, 1));
    let masks = 2 * m.number();
    // The byte that gives the label template's length may lie outside.
    ensure(9 + masks < part.len(), 12, LENGTH)?;
    let z = field(part, 9 + masks, 1);
    ensure(part.len() == 10 + masks + z.number(), 12, LENGTH)?;
    field(part, 5, 2).ensure_zero()?;
    flags.ensure(flags.number() == 0, 11)?;
    m.ensure([0, 8, 16].contains(&m.number()), 18)?;
    z.ensure([0, 64].contains(&z.number()), 18)?;
    if z.number() == 0 {
        return Ok(());
    }
    field(part, 10 + masks, 64).ensure_form(forms::is_label_template)
}

fn dates(part: &[u8]) -> Check {
    ensure(part.len() == 16, 12, LENGTH)?;
    field(part, 5, 1).ensure_zero()?;
    let flags = field(part, 6, 2);
    flags.ensure(matches!(flags.bytes, [0, 0 | 1]), 11)?;
    // "The dates are judged only when the flags are 1" (02, #102).
    if flags.number() == 0 {
        return Ok(());
    }
    let [activation, expiration] = [8, 12].map(|offset| field(part, offset, 4));
    activation.ensure(forms::date_exists(activation.bytes), 19)?;
    expiration.ensure(forms::date_exists(expiration.bytes), 19)?;
    // Year, month and day stand in this order, so bytes compare as dates do.
    expiration.ensure(activation.bytes <= expiration.bytes, 19)
}
