//! Ctrl-C as a flag, for a clean stop. A second one ends the program at once.
use std::process;
use std::sync::atomic::{AtomicBool, Ordering};

/// What a shell says of a program that Ctrl-C ended.
pub const STATUS: u8 = 130;

static STOP: AtomicBool = AtomicBool::new(false);

pub fn watch() {
    let each_time = || {
        if STOP.swap(true, Ordering::Relaxed) {
            process::exit(STATUS.into());
        }
    };
    ctrlc::set_handler(each_time).expect("Ctrl-C can be watched");
}

pub fn stopped() -> bool {
    STOP.load(Ordering::Relaxed)
}
