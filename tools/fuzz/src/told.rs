//! Out of memory only if memory was refused. An allocation that is refused ends this process, so no answer says out of memory.

use std::fmt::Display;

/// Passes on an answer that does not say out of memory.
#[track_caller]
pub fn told<T, E: Display>(answer: Result<T, E>) -> Result<T, E> {
    if let Err(error) = &answer {
        let text = error.to_string();
        assert!(
            !text.to_lowercase().contains("out of memory"),
            "{text}, and no memory was refused"
        );
    }
    answer
}
