//! The station files of the folder `examples/` and their texts are those that the library makes.

#[path = "../examples/stations/made.rs"]
mod made;

use std::collections::BTreeMap;
use std::fs;
use std::path::{Path, PathBuf};

/// What a folder has, by name.
fn inside(folder: &Path) -> Vec<(String, PathBuf)> {
    let entries = fs::read_dir(folder).unwrap().map(Result::unwrap);
    let named = |entry: fs::DirEntry| (entry.file_name().into_string().unwrap(), entry.path());
    entries.map(named).collect()
}

/// The station files and the texts in the folders of `examples/`, by their paths there. A folder
/// may also have descriptions, from which a file can be made by hand.
fn stored() -> BTreeMap<String, Vec<u8>> {
    let examples = Path::new(env!("CARGO_MANIFEST_DIR")).join("../../examples");
    let mut stored = BTreeMap::new();
    for (folder, path) in inside(&examples) {
        if path.is_dir() {
            for (name, path) in inside(&path) {
                if !name.ends_with(".description") {
                    stored.insert(format!("{folder}/{name}"), fs::read(path).unwrap());
                }
            }
        }
    }
    stored
}

#[test]
fn the_folder_has_what_is_made() {
    let (made, mut stored) = (made::all(), stored());
    assert_eq!(made.len(), 72);
    for (path, bytes) in made {
        let wanted = stored.remove(&path);
        assert!(wanted == Some(bytes), "{path} is not there, or differs");
    }
    assert!(stored.is_empty(), "not made: {:?}", stored.keys());
}

#[test]
fn each_refused_file_is_refused_by_its_number() {
    let (mut tables, mut plan) = ([0; aberulwy::TABLES_LENGTH], [0; 8192]);
    let (mut opened, mut refused) = (0, 0);
    for (path, file) in made::all() {
        if path.ends_with(".station") {
            let (folder, name) = path.split_once('/').unwrap();
            match aberulwy::read_station(&file, &mut tables, &mut plan) {
                Ok(_) => {
                    assert_ne!(folder, "refused", "{path}");
                    opened += 1;
                }
                Err(refusal) => {
                    let number = refusal.number().to_string();
                    assert_eq!(
                        (folder, name.split('-').next()),
                        ("refused", Some(&number[..]))
                    );
                    refused += 1;
                }
            }
        }
    }
    assert_eq!((opened, refused), (17, 19));
}

/// "Every file of `examples/` that opens is reproduced byte for byte": what the library reads from
/// it is written as that file again.
#[test]
fn the_examples_are_written_again() {
    let mut written = 0;
    for (path, file) in stored() {
        let (mut tables, mut plan) = ([1; aberulwy::TABLES_LENGTH], [1; aberulwy::LONGEST_PLAN]);
        let read = aberulwy::read_station(&file, &mut tables, &mut plan);
        if let (true, Ok(words)) = (path.ends_with(".station"), read) {
            let mut area = [1; aberulwy::LONGEST_STATION];
            let answer = aberulwy::write_station(&tables, &plan[..words], &mut area);
            assert_eq!(answer, Ok(file.len()), "{path}");
            let (again, behind) = area.split_at(file.len());
            assert!(again == file, "{path}");
            assert!(behind.iter().all(|&byte| byte == 0), "{path}");
            written += 1;
        }
    }
    // Nine of the trial trays, six of the bench, and two that stop.
    assert_eq!(written, 17);
}
