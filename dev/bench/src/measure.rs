//! Of how much text times are told, and the least time of some runs.
use std::error::Error;
use std::path::{Path, PathBuf};
use std::{fs, io};

const RUNS: u32 = 15;
const BYTES: usize = 3_000_000;

extern "C" {
    fn clock() -> std::ffi::c_long;
}

/// The processor time of this process, in nanoseconds.
pub fn now() -> u64 {
    unsafe { clock() as u64 * 1000 }
}

/// The least time of some runs.
pub fn least(mut run: impl FnMut()) -> u64 {
    let times = (0..RUNS).map(|_| {
        let start = now();
        run();
        now() - start
    });
    times.min().expect("there are runs")
}

/// All files of Rust in a folder, and in those inside it.
fn files(folder: &Path, found: &mut Vec<PathBuf>) -> io::Result<()> {
    for entry in fs::read_dir(folder)? {
        let path = entry?.path();
        if path.is_dir() {
            files(&path, found)?;
        } else if path.extension().is_some_and(|extension| extension == "rs") {
            found.push(path);
        }
    }
    Ok(())
}

/// Some 3 MB of what `read` makes of the folder's files, and of those again where they are fewer. It answers `None` of
/// a file that is left out.
pub fn source(folder: &Path, read: impl Fn(String) -> Option<String>) -> Result<String, Box<dyn Error>> {
    let mut found = Vec::new();
    files(folder, &mut found)?;
    found.sort();
    let texts: Vec<String> = found.iter().filter_map(|path| read(fs::read_to_string(path).ok()?)).collect();
    if texts.is_empty() {
        return Err("none of the files can be read".into());
    }
    let mut text = String::new();
    for one in texts.iter().cycle() {
        text.push_str(one);
        if text.len() >= BYTES {
            break;
        }
    }
    Ok(text)
}
