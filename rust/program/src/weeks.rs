//! The weeks in the repository's folder `weeks`.

use std::fs;
use std::path::PathBuf;

use reference::VOTE_LENGTH;
use weektext::records;

use crate::root;

/// A week, with the listing that is stored beside it.
pub struct Week {
    /// Its file's name, without the ending.
    pub name: String,
    /// Its records.
    pub bytes: Vec<u8>,
    /// The listing.
    pub listing: Vec<u8>,
}

/// The files of the folder with this ending, in order.
pub fn week_files(ending: &str) -> Vec<PathBuf> {
    let folder = fs::read_dir(root().join("weeks")).expect("there is a folder of weeks");
    let mut files: Vec<PathBuf> = folder
        .map(|entry| entry.expect("the folder can be read").path())
        .filter(|path| path.extension().is_some_and(|found| found == ending))
        .collect();
    files.sort();
    files
}

/// All weeks, in order. Panics, and says which, where one has an error.
pub fn weeks() -> Vec<Week> {
    let weeks = week_files("txt").into_iter().map(|file| {
        let name = file.file_stem().expect("a week has a name");
        let name = name.to_str().expect("names are UTF-8").to_owned();
        let source = fs::read(&file).expect("the week can be read");
        Week {
            bytes: records(&source).unwrap_or_else(|error| panic!("weeks/{name}.txt: {error}")),
            listing: fs::read(file.with_extension("listing"))
                .unwrap_or_else(|error| panic!("weeks/{name}.listing: {error}")),
            name,
        }
    });
    weeks.collect()
}

/// The records of document 01's example.
pub fn example() -> Vec<u8> {
    let source = fs::read(root().join("weeks/example.txt")).expect("the week can be read");
    records(&source).expect("the week has no error")
}

/// The example's last vote so many times; behind the example each is heard
/// again, and prints a line of some 20 bytes.
pub fn votes_again(count: usize) -> Vec<u8> {
    let example = example();
    example[example.len() - VOTE_LENGTH..].repeat(count)
}
