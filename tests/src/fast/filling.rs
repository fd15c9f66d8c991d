//! The pass that fills the table.

use super::COLUMNS;
use std::slice::IterMut;

/// How a rule without subsections begins: its id, its version, its 20 bytes.
const BARE_RULE: [u8; 4] = [0x12, 0, 0, 20];

/// Writes the rows of a token that was judged legal, and has room.
#[inline(always)]
pub fn fill(token: &[u8], table: &mut [u32]) {
    let mut filling = Filling {
        free: table.as_chunks_mut().0.iter_mut(),
        rows: 0,
        rules: 0,
    };
    let mut place = 8;
    while let Some(head) = four(token, place) {
        let [id, _, high, low] = head;
        let (kind, length) = (u32::from(id) << 16, stated(high, low));
        let (rule, fixed) = match id {
            0x12 if head == BARE_RULE => {
                place = filling.put_bare_rules(token, place);
                continue;
            }
            0x12 => {
                filling.rules += 1;
                (filling.rules, 20)
            }
            0x14 => (0, 10),
            _ => (0, length),
        };
        let owner = filling.rows;
        filling.put([kind, place as u32, length as u32, owner, rule]);
        let mut inner = place + fixed;
        place += length;
        while inner < place {
            let Some([_, tag, high, low]) = four(token, inner) else {
                return;
            };
            let (kind, length) = (kind + u32::from(tag), stated(high, low));
            filling.put([kind, inner as u32, length as u32, owner, rule]);
            inner += length;
        }
    }
}

/// The four bytes from a place on.
#[inline(always)]
fn four(token: &[u8], place: usize) -> Option<[u8; 4]> {
    token.get(place..)?.first_chunk().copied()
}

/// The length that two bytes state.
#[inline(always)]
fn stated(high: u8, low: u8) -> usize {
    usize::from(u16::from_be_bytes([high, low]))
}

/// The rows that are not yet written, and how many rows and rules are.
struct Filling<'a> {
    free: IterMut<'a, [u32; COLUMNS]>,
    rows: u32,
    rules: u32,
}

impl Filling<'_> {
    #[inline(always)]
    fn put(&mut self, numbers: [u32; COLUMNS]) {
        if let Some(row) = self.free.next() {
            *row = numbers;
        }
        self.rows += 1;
    }

    /// The rules without subsections that stand together from `place` on;
    /// gives where they end. A loop of its own need not wait for the length of
    /// one to find the next, and with two numbers in one the first four of a
    /// row are counted up and written at once.
    #[inline(always)]
    fn put_bare_rules(&mut self, token: &[u8], place: usize) -> usize {
        let (rules, _) = token[place..].as_chunks::<20>();
        let bare = rules.iter().take_while(|rule| rule[..4] == BARE_RULE);
        let before = self.rules;
        let mut kind_and_place = 0x12_0000 | (place as u64) << 32;
        let mut length_and_owner = 20 | u64::from(self.rows) << 32;
        for (_, row) in bare.zip(self.free.by_ref()) {
            self.rules += 1;
            let [kind, place] = halves(kind_and_place);
            let [length, owner] = halves(length_and_owner);
            *row = [kind, place, length, owner, self.rules];
            kind_and_place += 20 << 32;
            length_and_owner += 1 << 32;
        }
        let count = self.rules - before;
        self.rows += count;
        place + 20 * count as usize
    }
}

/// The low half and the high half.
#[inline(always)]
fn halves(pair: u64) -> [u32; 2] {
    [pair as u32, (pair >> 32) as u32]
}
