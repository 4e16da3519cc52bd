//! Each public function of the front has an example.

use std::fs;
use std::path::{Path, PathBuf};

// All that these have is the package's own, but for the builders' setters in `settings.rs`.
const INTERNAL: [&str; 9] = [
    "key.rs",
    "look_ups.rs",
    "making.rs",
    "mark.rs",
    "notices.rs",
    "once.rs",
    "random_calls.rs",
    "shard.rs",
    "sync/calls.rs",
];

fn sources() -> Vec<PathBuf> {
    let front = Path::new(env!("CARGO_MANIFEST_DIR")).join("src");
    let directories = [front.clone(), front.join("sync"), front.join("unsync")];
    let internal = INTERNAL.map(|file| front.join(file));
    for path in &internal {
        assert!(path.is_file(), "there is no {}", path.display());
    }
    let entries = directories
        .iter()
        .flat_map(|directory| fs::read_dir(directory).unwrap());
    let files = entries.map(|entry| entry.unwrap().path()).filter(|path| path.is_file());
    files.filter(|path| !internal.contains(path)).collect()
}

/// What follows `fn` in a line that begins a public function.
fn public(line: &str) -> Option<&str> {
    let mut rest = line.strip_prefix("pub ")?;
    for word in ["const ", "async ", "unsafe "] {
        rest = rest.strip_prefix(word).unwrap_or(rest);
    }
    rest.strip_prefix("fn ")
}

/// The public functions of a source, each with whether it has an example: a block of code with no word beside its
/// fence, by which it might not be run.
fn functions(text: &str) -> Vec<(&str, bool)> {
    let (mut found, mut has_example, mut is_open) = (Vec::new(), false, false);
    for line in text.lines().map(str::trim_start) {
        if let Some(word) = line.strip_prefix("/// ```") {
            has_example |= !is_open && word.is_empty();
            is_open = !is_open;
        } else if !line.starts_with("///") && !line.starts_with("#[") {
            found.extend(public(line).map(|rest| (rest, has_example)));
            (has_example, is_open) = (false, false);
        }
    }
    found
}

#[test]
fn an_example_is_a_block_that_is_run() {
    let text = "
        /// ```
        #[doc = \"let it = 1;\"]
        /// ```
        #[must_use]
        pub fn one() {}

        /// ```text
        /// no code
        /// ```
        pub const fn two() {}

        /// ```ignore
        /// ```
        ///
        /// ```
        /// let it = 1;
        /// ```
        pub unsafe fn three() {}

        /// None.
        pub const unsafe fn four() {}

        /// ```
        /// ```
        pub(crate) fn five() {}
        pub async fn six() {}
    ";
    let expected = [
        ("one() {}", true),
        ("two() {}", false),
        ("three() {}", true),
        ("four() {}", false),
        ("six() {}", false),
    ];
    assert_eq!(functions(text), expected);
}

#[test]
fn each_public_function_has_an_example() {
    let mut count = 0;
    for path in sources() {
        let text = fs::read_to_string(&path).unwrap();
        let settings = text.split_once("macro_rules! setters").map(|(_, setters)| setters);
        for (function, has_example) in functions(settings.unwrap_or(&text)) {
            assert!(has_example, "{}: {function}", path.display());
            count += 1;
        }
    }
    assert!(count > 80, "{count} functions were found");
}
