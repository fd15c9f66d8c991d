//! The signs of Rule IDs and label templates, by table.

const RULE_SIGN: u8 = 1;
const LABEL_SIGN: u8 = 2;

/// Which signs stand in Rule IDs and in label templates, stars left aside.
static SIGNS: [u8; 256] = {
    let mut signs = [0; 256];
    let mut byte = 0;
    while byte < 256 {
        let sign = byte as u8;
        signs[byte] = if sign.is_ascii_alphanumeric() {
            RULE_SIGN | LABEL_SIGN
        } else {
            match sign {
                b'-' | b'_' => RULE_SIGN,
                b'#' | b'$' | b'@' => LABEL_SIGN,
                _ => 0,
            }
        };
        byte += 1;
    }
    signs
};

/// Signs, at least one, then spaces only.
#[inline]
pub fn is_rule_id(rule_id: [u8; 8]) -> bool {
    const SPACES: u64 = u64::from_be_bytes([b' '; 8]);
    let spaces = (u64::from_be_bytes(rule_id) ^ SPACES).trailing_zeros() / 8;
    // One bit for each byte, set for a sign: first all the signs, then none.
    let signs = rule_id.iter().fold(0u32, |bits, byte| {
        bits << 1 | u32::from(SIGNS[usize::from(*byte)] & RULE_SIGN)
    });
    spaces < 8 && signs == 0xFF << spaces & 0xFF
}

/// In eight bytes that are no Rule ID, the first at which none can go on: it is
/// no sign, or after a space no space.
#[cold]
pub fn wrong_in_rule_id(rule_id: [u8; 8]) -> usize {
    let is_sign = |byte: u8| SIGNS[usize::from(byte)] & RULE_SIGN != 0;
    let mut wrong = 0;
    while wrong < 7 && is_sign(rule_id[wrong]) {
        wrong += 1;
    }
    while (1..7).contains(&wrong) && rule_id[wrong] == b' ' {
        wrong += 1;
    }
    wrong
}

pub fn is_label_template(label: &[u8]) -> bool {
    let Some(last) = label.iter().rposition(|byte| *byte != b' ') else {
        return false;
    };
    let signs = &label[..=last];
    // One star, first or last, is left aside.
    let rest = match signs {
        [b'*', rest @ ..] | [rest @ .., b'*'] => rest,
        all => all,
    };
    let is_sign = |byte: &u8| SIGNS[usize::from(*byte)] & LABEL_SIGN != 0;
    !signs[0].is_ascii_digit() && rest.iter().all(is_sign)
}

/// In a field that is no label template, the first byte at which none can go
/// on.
#[cold]
pub fn wrong_in_label(label: &[u8]) -> usize {
    if label[0].is_ascii_digit() {
        return 0;
    }
    let is_sign = |byte: &u8| SIGNS[usize::from(*byte)] & LABEL_SIGN != 0;
    let (mut star, mut ended) = (false, false);
    let goes_on = |(place, byte): (usize, &u8)| match byte {
        b' ' => {
            ended = true;
            place > 0
        }
        // Nothing but spaces follows a star that is not the first byte.
        b'*' if !star && !ended => {
            star = true;
            ended = place > 0;
            true
        }
        byte => is_sign(byte) && !ended,
    };
    let right = label.iter().enumerate().map(goes_on);
    right.take_while(|right| *right).count()
}
