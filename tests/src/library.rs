//! The proved library, called as a host program in C calls it.

use crate::reader::{Answer, Row};
use crate::views::Step;

/// The C calls as they are. Result: 0 or the refusal; `second`: the rows or
/// the place.
pub mod calls {
    extern "C" {
        pub fn tb_read(token: *const u8, token_len: usize, second: *mut u32) -> u32;
        pub fn tb_read_table(
            token: *const u8,
            token_len: usize,
            table: *mut u32,
            table_len: usize,
            second: *mut u32,
        ) -> u32;
        pub fn tb_view(
            token: *const u8,
            token_len: usize,
            row: u32,
            field: u32,
            second: *mut u32,
            offset: *mut u32,
            length: *mut u32,
        ) -> u32;
        pub fn tb_step(
            token: *const u8,
            token_len: usize,
            place: u32,
            second: *mut u32,
            kind: *mut u32,
            offset: *mut u32,
            length: *mut u32,
            owner: *mut u32,
            rule: *mut u32,
            next: *mut u32,
        ) -> u32;
        pub fn tb_row(
            token: *const u8,
            token_len: usize,
            row: u32,
            second: *mut u32,
            kind: *mut u32,
            offset: *mut u32,
            length: *mut u32,
            owner: *mut u32,
            rule: *mut u32,
            next: *mut u32,
        ) -> u32;
    }
}

/// What `second` holds before a call; no answer gives it.
const NOT_GIVEN: u32 = u32::MAX;

/// 0 with the count of rows, or the refusal.
#[inline]
pub fn read(token: &[u8]) -> Answer {
    let mut second = NOT_GIVEN;
    // SAFETY: the pointers are those of live borrows, with their lengths.
    let number = unsafe { calls::tb_read(token.as_ptr(), token.len(), &mut second) };
    Answer { number, second }
}

/// The same, and fills the table with the rows of an accepted token.
#[inline]
pub fn read_table(token: &[u8], table: &mut [u32]) -> Answer {
    let mut second = NOT_GIVEN;
    // SAFETY: as above, and nothing else holds the table meanwhile.
    let number = unsafe {
        calls::tb_read_table(
            token.as_ptr(),
            token.len(),
            table.as_mut_ptr(),
            table.len(),
            &mut second,
        )
    };
    Answer { number, second }
}

/// Offset and length in the token of a field, by row and field number. On
/// refusal both must be 0.
pub fn view(token: &[u8], row: u32, field: u32) -> Result<(u32, u32), Answer> {
    let (mut second, mut offset, mut length) = (NOT_GIVEN, NOT_GIVEN, NOT_GIVEN);
    // SAFETY: as above; the three numbers are apart.
    let number = unsafe {
        calls::tb_view(
            token.as_ptr(),
            token.len(),
            row,
            field,
            &mut second,
            &mut offset,
            &mut length,
        )
    };
    if number == 0 {
        assert_eq!(second, 0);
        return Ok((offset, length));
    }
    assert_eq!((offset, length), (0, 0));
    Err(Answer { number, second })
}

/// `tb_step` or `tb_row`.
type WalkCall = unsafe extern "C" fn(
    *const u8,
    usize,
    u32,
    *mut u32,
    *mut u32,
    *mut u32,
    *mut u32,
    *mut u32,
    *mut u32,
    *mut u32,
) -> u32;

/// The step of the walk at a place.
pub fn step(token: &[u8], place: u32) -> Step {
    walked(calls::tb_step, token, place)
}

/// The row of this number.
pub fn row(token: &[u8], row: u32) -> Step {
    walked(calls::tb_row, token, row)
}

/// Where no row is given, its numbers must be 0; no row has kind 0.
fn walked(call: WalkCall, token: &[u8], asked: u32) -> Step {
    let mut second = NOT_GIVEN;
    let [mut kind, mut offset, mut length, mut owner, mut rule, mut next] = [NOT_GIVEN; 6];
    // SAFETY: as above; the seven numbers are apart.
    let number = unsafe {
        call(
            token.as_ptr(),
            token.len(),
            asked,
            &mut second,
            &mut kind,
            &mut offset,
            &mut length,
            &mut owner,
            &mut rule,
            &mut next,
        )
    };
    if number == 0 {
        assert_eq!(second, 0);
    }
    if number == 0 && kind != 0 {
        let row = Row {
            kind,
            offset,
            length,
            owner,
            rule,
        };
        return Step::Row(row, next);
    }
    assert_eq!([kind, offset, length, owner, rule, next], [0; 6]);
    if number == 0 {
        return Step::End;
    }
    Step::Refused(Answer { number, second })
}
