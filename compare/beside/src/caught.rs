//! A call that may panic.
use std::panic::{self, AssertUnwindSafe};

/// What the call returns, or the message that it panics with, which is not printed.
pub fn run<T>(call: impl FnOnce() -> T) -> Result<T, String> {
    let hook = panic::take_hook();
    panic::set_hook(Box::new(|_| {}));
    let answer = panic::catch_unwind(AssertUnwindSafe(call));
    panic::set_hook(hook);
    answer.map_err(|payload| match payload.downcast::<String>() {
        Ok(message) => *message,
        Err(payload) => match payload.downcast::<&str>() {
            Ok(message) => message.to_string(),
            Err(_) => "without a message".to_string(),
        },
    })
}
