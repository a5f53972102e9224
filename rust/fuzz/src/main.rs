//! What libFuzzer calls with each text: reading, writing and reading back beside the crate, and the list of starts beside
//! its oracle. A difference ends the run with the smallest text that shows it.
#![no_main]
use compare::all::All;
use std::cell::RefCell;

thread_local! {
    static ALL: RefCell<All> = RefCell::default();
}

#[no_mangle]
pub extern "C" fn LLVMFuzzerTestOneInput(bytes: *const u8, len: usize) -> i32 {
    // an empty text may come with any pointer
    let text = if len == 0 { &[][..] } else { unsafe { std::slice::from_raw_parts(bytes, len) } };
    ALL.with(|all| {
        let mut all = all.borrow_mut();
        if all.compare(text).is_err() {
            eprintln!("{}", all.smallest(text));
            std::process::abort();
        }
    });
    0
}
