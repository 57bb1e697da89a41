//! Catches a panic of the Rust source without printing it. A panic of the harness itself goes on.

use std::cell::RefCell;
use std::panic::{AssertUnwindSafe, catch_unwind, resume_unwind, set_hook, take_hook};
use std::sync::Once;

thread_local! {
    /// None: not watching. Else the place and message of the last panic, empty before any.
    static SEEN: RefCell<Option<(String, String)>> = const { RefCell::new(None) };
}

/// What `work` gives, or where the source panicked and why.
pub fn quietly<T>(work: impl FnOnce() -> T) -> Result<T, String> {
    static HOOK: Once = Once::new();
    HOOK.call_once(|| {
        let before = take_hook();
        set_hook(Box::new(move |info| {
            let file = info.location().map_or("", |place| place.file());
            let watched = SEEN.with_borrow_mut(|seen| match seen {
                Some(seen) if file.contains("aic_upg/") => {
                    let line = info.location().map_or(0, |place| place.line());
                    let name = file.rsplit('/').next().unwrap_or(file);
                    let why = info.payload_as_str().unwrap_or("?");
                    *seen = (file.to_string(), format!("{name}:{line}: {why}"));
                    true
                }
                _ => false,
            });
            if !watched {
                before(info);
            }
        }));
    });
    SEEN.set(Some(Default::default()));
    let result = catch_unwind(AssertUnwindSafe(work));
    let seen = SEEN.take();
    match (result, seen) {
        (Ok(value), _) => Ok(value),
        (Err(_), Some((file, why))) if !file.is_empty() => Err(why),
        (Err(payload), _) => resume_unwind(payload),
    }
}
