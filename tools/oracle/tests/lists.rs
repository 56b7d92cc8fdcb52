//! The lists that are recorded in crates/ come out the same.

use oracle::{blocks, samples, sessions};

/// The list of a program that is there.
fn is_recorded(name: &str, list: Vec<u8>) {
    let file = format!("{}/../../crates/{name}/stdin", env!("CARGO_MANIFEST_DIR"));
    if let Ok(recorded) = std::fs::read(file) {
        assert!(list == recorded, "{name} has another list");
    }
}

// Alone in this file: it tries messages in processes of their own, which a program of one thread does.
#[test]
fn recorded_lists() {
    is_recorded("replay_blocks", blocks::list());
    is_recorded("replay_stream", sessions::list());
    is_recorded("replay_rows", samples::rows_list(samples::ROWS_SEED));
    is_recorded("replay_text", samples::text_list(samples::TEXT_SEED));
}
