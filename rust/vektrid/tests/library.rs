//! No call of the library comes before the comparison of its number.

use std::fs;
use std::path::Path;

/// The comparison itself, and the declarations, which call nothing.
const WITHOUT: [&str; 2] = ["library.rs", "raw.rs"];

/// Only an unsafe block can call the library, so each of them must stand behind the comparison.
#[test]
fn every_unsafe_block_stands_behind_the_comparison() {
    let mut blocks = 0;
    for entry in fs::read_dir(Path::new(env!("CARGO_MANIFEST_DIR")).join("src")).unwrap() {
        let path = entry.unwrap().path();
        if WITHOUT.iter().any(|name| path.ends_with(name)) {
            continue;
        }
        let text = fs::read_to_string(&path).unwrap();
        let count = text.matches("unsafe").count();
        assert_eq!(text.matches("library::call(|| unsafe {").count(), count, "{}", path.display());
        blocks += count;
    }
    assert!(blocks > 15);
}
