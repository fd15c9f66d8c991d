//! What both targets share: changes that keep a token's or a sequence's form.

use trusted_block_tests::fuzzed::coded::{coded, decoded};
use trusted_block_tests::generate::calls::{Call, Sequence};
pub use trusted_block_tests::random::Random;

/// How much longer what stands for a call may become.
const LONGER: usize = 80;

extern "C" {
    fn LLVMFuzzerMutate(bytes: *mut u8, length: usize, most: usize) -> usize;
    fn against_a_wall(bytes: *const u8, length: usize) -> *const u8;
}

/// The two functions that libFuzzer calls: one tries an input, the other
/// changes one.
#[macro_export]
macro_rules! target {
    ($trial:path, $change:path) => {
        /// # Safety
        /// Called by libFuzzer.
        #[no_mangle]
        pub unsafe extern "C" fn LLVMFuzzerTestOneInput(bytes: *const u8, length: usize) -> i32 {
            $trial($crate::lent(bytes, length));
            0
        }

        /// # Safety
        /// Called by libFuzzer.
        #[no_mangle]
        pub unsafe extern "C" fn LLVMFuzzerCustomMutator(
            bytes: *mut u8,
            length: usize,
            most: usize,
            seed: u32,
        ) -> usize {
            let mut random = $crate::Random::new(seed.into());
            let other = $change(&mut random, $crate::input(bytes, length), most);
            $crate::give_back(&other, bytes, most)
        }
    };
}

/// The bytes of an input.
///
/// # Safety
/// The pointer is libFuzzer's, with its length.
pub unsafe fn input<'a>(bytes: *const u8, length: usize) -> &'a [u8] {
    if length == 0 {
        return &[];
    }
    std::slice::from_raw_parts(bytes, length)
}

/// A copy of an input at the end of memory that may be read.
///
/// # Safety
/// As above; the copy lasts until the next one.
pub unsafe fn lent<'a>(bytes: *const u8, length: usize) -> &'a [u8] {
    std::slice::from_raw_parts(against_a_wall(bytes, length), length)
}

/// Puts a changed input where libFuzzer wants it, if there is room.
///
/// # Safety
/// The pointer is libFuzzer's, with room for `most` bytes.
pub unsafe fn give_back(changed: &[u8], bytes: *mut u8, most: usize) -> usize {
    let length = changed.len().min(most);
    std::ptr::copy_nonoverlapping(changed.as_ptr(), bytes, length);
    length
}

/// libFuzzer's own change of some bytes; it takes no buffer without room.
pub fn changed(bytes: &[u8], most: usize) -> Vec<u8> {
    let mut buffer = bytes.to_vec();
    buffer.resize(most.max(bytes.len()), 0);
    if buffer.is_empty() {
        return buffer;
    }
    // SAFETY: the buffer has room for as many bytes as it is said to have.
    let length = unsafe { LLVMFuzzerMutate(buffer.as_mut_ptr(), bytes.len(), buffer.len()) };
    buffer.truncate(length);
    buffer
}

/// One more, one less, one twice, or two that change places.
pub fn change_list<T: Clone>(random: &mut Random, list: &mut Vec<T>, new: fn(&mut Random) -> T) {
    let to = random.below(list.len() + 1);
    if list.is_empty() || random.once_in(3) {
        return list.insert(to, new(random));
    }
    let (from, other) = (random.below(list.len()), random.below(list.len()));
    match random.below(3) {
        0 => drop(list.remove(from)),
        1 => list.insert(to, list[from].clone()),
        _ => list.swap(from, other),
    }
}

/// The call that libFuzzer's change of one's bytes stands for. Lengths come
/// from the fields, so they stay in line.
pub fn changed_call(call: &Call) -> Option<Call> {
    let sequence = |calls| Sequence {
        buffer: Vec::new(),
        calls,
    };
    let mut bytes = coded(&sequence(vec![]));
    let call = coded(&sequence(vec![call.clone()])).split_off(bytes.len());
    // The first byte says which call it is.
    bytes.push(call[0]);
    bytes.extend(changed(&call[1..], call.len() + LONGER));
    decoded(&bytes).calls.into_iter().next()
}
