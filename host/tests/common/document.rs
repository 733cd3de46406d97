//! What the pages for users show.

use std::fs;
use std::path::Path;

/// The text of a page of docs/.
pub fn document(page: &str) -> String {
    let docs = Path::new(env!("CARGO_MANIFEST_DIR")).join("../docs");
    fs::read_to_string(docs.join(page)).expect("the page is there")
}

/// The inputs of a page of docs/, and what is shown after each in a block of that name.
pub fn shown(page: &str, name: &str) -> Vec<(String, String)> {
    let text = document(page);
    let pieces: Vec<_> = text.split("```").collect();
    // Text, an input, text, what it prints, and so on; text at last.
    let pairs = pieces.chunks_exact(4).map(|pieces| {
        let block = |piece: &str, name: &str| {
            let body = piece
                .strip_prefix(name)
                .expect("inputs and outputs alternate");
            body.strip_prefix('\n')
                .expect("a line of its own")
                .to_owned()
        };
        (block(pieces[1], "input"), block(pieces[3], name))
    });
    let pairs: Vec<_> = pairs.collect();
    assert_eq!(pieces.len(), 4 * pairs.len() + 1);
    assert!(!pairs.is_empty(), "{page} shows no input");
    pairs
}
