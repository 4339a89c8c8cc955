//! Writes the station files of the folder `examples/`, and beside each the text that the program
//! prints for it.
//!
//! `stations FOLDER`

mod made;

use std::path::Path;
use std::{fs, io};

fn main() -> io::Result<()> {
    let folder = std::env::args_os().nth(1).expect("stations FOLDER");
    for (path, bytes) in made::all() {
        let path = Path::new(&folder).join(path);
        fs::create_dir_all(path.parent().expect("each file is in a folder"))?;
        fs::write(path, bytes)?;
    }
    Ok(())
}
