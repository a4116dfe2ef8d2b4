//! The target that libFuzzer calls: both implementations do what an input says, and what they answer is compared.
pub mod case;
mod differences;
mod field;

use case::Case;
use compare::checker::hex;
pub use differences::differences;

/// A difference ends the process, so that libFuzzer keeps the input.
///
/// # Safety
/// The pointer leads to `length` octets.
#[no_mangle]
#[allow(non_snake_case)]
pub unsafe extern "C" fn LLVMFuzzerTestOneInput(octets: *const u8, length: usize) -> i32 {
    let input = std::slice::from_raw_parts(octets, length);
    let case = Case::of(input);
    if differences(&case) != 0 {
        println!("DIFFERENCE with the input {}", hex(input));
        println!("  which says {case:X?}");
        std::process::abort();
    }
    0
}
