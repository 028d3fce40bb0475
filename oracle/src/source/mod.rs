//! The Rust's two decoders, asked with what a definition text stands for; their answers as rows.
//!
//! The Rust's answers name a field by strings that it copies from its schema. So what a row wants
//! (a number, a line) is put into strings there that decide nothing.

pub mod command;
pub mod header;
pub mod xml;

use std::any::Any;
use std::cell::Cell;
use std::panic::{self, UnwindSafe};
use std::sync::Once;

/// What the Rust answers; `None` where a sum or product on its way passes 64 bits. It is built with
/// overflow checks, so it panics there. Any other panic goes on.
fn asked<T>(call: impl FnOnce() -> T + UnwindSafe) -> Option<T> {
    thread_local!(static ASKING: Cell<bool> = const { Cell::new(false) });
    static SILENCED: Once = Once::new();
    SILENCED.call_once(|| {
        let usual = panic::take_hook();
        panic::set_hook(Box::new(move |panicked| {
            if !(ASKING.get() && is_overflow(panicked.payload())) {
                usual(panicked);
            }
        }));
    });
    ASKING.set(true);
    let answer = panic::catch_unwind(call);
    ASKING.set(false);
    match answer {
        Ok(answer) => Some(answer),
        Err(panicked) if is_overflow(&*panicked) => None,
        Err(panicked) => panic::resume_unwind(panicked),
    }
}

fn is_overflow(panicked: &(dyn Any + Send)) -> bool {
    panicked.downcast_ref::<&str>().is_some_and(|text| text.ends_with(" with overflow"))
}

/// A number that was put into one of the Rust's strings.
fn number<T: std::str::FromStr>(label: &str) -> T {
    label.parse().unwrap_or_else(|_| panic!("not a number that was put there: {label}"))
}
