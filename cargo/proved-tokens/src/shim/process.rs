//! What a program is given. Its words, streams and files come with the feature `programs`: they take long to compile.

#[cfg(feature = "programs")]
use std::io::{Read, Result, Write};
#[cfg(feature = "programs")]
pub use std::process::ExitCode;

/// What Rattle gives to `main`.
pub struct HostRuntime;

#[cfg(feature = "programs")]
impl HostRuntime {
    /// Contract: standard input. A read of it is one of the system's.
    pub fn stdin(&self) -> impl Read {
        system::stdin()
    }

    /// Contract: standard output. A write to it is one of the system's.
    pub fn stdout(&self) -> impl Write {
        system::stdout()
    }

    /// Contract: standard error. A write to it is one of the system's.
    pub fn stderr(&self) -> impl Write {
        system::stderr()
    }
}

/// The words that a program is given.
#[cfg(feature = "programs")]
pub mod env {
    use super::super::alloc::AllocError;
    use super::HostRuntime;
    use std::ffi::OsString;
    use std::io::{ErrorKind, Result};

    /// Words that are texts.
    pub struct Args(std::vec::IntoIter<std::string::String>);

    /// Contract: the words that the program was given, its name first, or `InvalidData` where one is no text.
    pub fn args(_: &HostRuntime) -> Result<Args> {
        texts(std::env::args_os())
    }

    pub(super) fn texts(words: impl Iterator<Item = OsString>) -> Result<Args> {
        let texts: std::result::Result<std::vec::Vec<_>, _> = words.map(OsString::into_string).collect();
        Ok(Args(texts.map_err(|_| ErrorKind::InvalidData)?.into_iter()))
    }

    impl Args {
        /// Contract: the words but the first so many.
        pub fn skip(self, words: usize) -> Args {
            let rest: std::vec::Vec<_> = self.0.skip(words).collect();
            Args(rest.into_iter())
        }

        /// Contract: the words, in order.
        pub fn collect(self) -> std::result::Result<Vec<String>, AllocError> {
            Ok(self.0.collect())
        }
    }
}

/// Files.
#[cfg(feature = "programs")]
pub mod fs {
    use super::HostRuntime;
    use std::ffi::{OsStr, OsString};
    use std::io::{Error, ErrorKind, Read, Result, Seek};
    use std::sync::OnceLock;

    // Names that are no texts, each after the text that stands for it.
    static NAMES: OnceLock<Vec<(String, OsString)>> = OnceLock::new();

    /// From here on each text is the path of the file of the name after it. Only the first call does something.
    pub fn stand_for(names: Vec<(String, OsString)>) {
        NAMES.get_or_init(|| names);
    }

    fn name_of(path: &str) -> &OsStr {
        let stands = NAMES.get().and_then(|names| names.iter().find(|(text, _)| text == path));
        stands.map_or(OsStr::new(path), |(_, name)| name)
    }

    /// A file that can be opened.
    pub struct File;

    impl File {
        /// Contract: the file at the path, to be read, or why the system doesn't open it.
        ///
        /// A text that no map has room for isn't opened, so that no memory is taken for it.
        pub fn open(_: &HostRuntime, path: &str) -> Result<std::fs::File> {
            let mut file = std::fs::File::open(name_of(path))?;
            if has_more_chars(&mut file, u32::MAX.into())? {
                return Err(Error::new(ErrorKind::InvalidData, "the text is too long"));
            }
            Ok(file)
        }
    }

    // Whether the file, not read yet, has more characters than so many. Each takes one byte to four, of which the first
    // alone isn't 10xxxxxx. What isn't a file on a disk, as a pipe, isn't looked at.
    pub(super) fn has_more_chars(file: &mut std::fs::File, most: u64) -> Result<bool> {
        let about = file.metadata()?;
        if !about.is_file() || about.len() <= most {
            return Ok(false);
        }
        if about.len() / 4 > most {
            return Ok(true);
        }
        let (mut buffer, mut chars) = (vec![0; 1 << 16], 0);
        while chars <= most {
            match file.read(&mut buffer)? {
                0 => break,
                count => chars += buffer[..count].iter().filter(|byte| **byte & 0xC0 != 0x80).count() as u64,
            }
        }
        file.rewind()?;
        Ok(chars > most)
    }
}

/// The standard streams where a system numbers them. Rust's own hold bytes back, and pass over a stream that is open
/// for the other direction; these do neither.
#[cfg(all(unix, feature = "programs"))]
mod system {
    use super::*;
    use std::fs::File;
    use std::io::Error;
    use std::os::fd::{AsFd, BorrowedFd};

    /// A stream by a number of its own, or why there is none.
    struct Stream(Result<File>);

    impl Stream {
        fn of(number: BorrowedFd<'_>) -> Stream {
            Stream(number.try_clone_to_owned().map(File::from))
        }

        fn file(&mut self) -> Result<&mut File> {
            self.0.as_mut().map_err(|error| Error::from(error.kind()))
        }
    }

    impl Read for Stream {
        fn read(&mut self, buffer: &mut [u8]) -> Result<usize> {
            self.file()?.read(buffer)
        }
    }

    impl Write for Stream {
        fn write(&mut self, bytes: &[u8]) -> Result<usize> {
            self.file()?.write(bytes)
        }

        fn flush(&mut self) -> Result<()> {
            Ok(())
        }
    }

    pub fn stdin() -> impl Read {
        Stream::of(std::io::stdin().as_fd())
    }

    pub fn stdout() -> impl Write {
        Stream::of(std::io::stdout().as_fd())
    }

    pub fn stderr() -> impl Write {
        Stream::of(std::io::stderr().as_fd())
    }
}

/// The standard streams elsewhere: Rust's.
#[cfg(all(not(unix), feature = "programs"))]
mod system {
    pub use std::io::{stderr, stdin, stdout};
}

#[cfg(all(test, feature = "programs"))]
mod tests {
    use super::*;
    use std::ffi::OsString;

    #[test]
    fn words_come_in_order_without_the_first() -> Result<()> {
        let words = ["name", "é", ""].map(OsString::from);
        let Ok(rest) = env::texts(words.into_iter())?.skip(1).collect();
        assert_eq!(rest, ["é", ""]);
        assert!(env::args(&HostRuntime).is_ok());
        Ok(())
    }

    #[test]
    #[cfg(unix)]
    fn words_that_are_no_text_are_refused() {
        use std::os::unix::ffi::OsStringExt;
        let words = [OsString::from("name"), OsString::from_vec(b"a\xFF".to_vec())];
        let error = env::texts(words.into_iter()).err().map(|error| error.kind());
        assert_eq!(error, Some(std::io::ErrorKind::InvalidData));
    }

    #[test]
    fn a_file_is_opened_or_the_system_says_why_not() -> Result<()> {
        let mut text = String::new();
        fs::File::open(&HostRuntime, concat!(env!("CARGO_MANIFEST_DIR"), "/Cargo.toml"))?.read_to_string(&mut text)?;
        assert!(text.starts_with("[package]"));
        let error = fs::File::open(&HostRuntime, "").err().map(|error| error.kind());
        assert_eq!(error, Some(std::io::ErrorKind::NotFound));
        Ok(())
    }

    #[test]
    fn a_file_has_as_many_characters_as_its_text() -> Result<()> {
        let path = concat!(env!("CARGO_MANIFEST_DIR"), "/src/shim/process.rs");
        let text = std::fs::read_to_string(path)?;
        let chars = text.chars().count() as u64;
        assert!(chars < text.len() as u64, "é");
        for (most, wanted) in [(chars / 8, true), (chars - 1, true), (chars, false), (text.len() as u64, false)] {
            let mut file = std::fs::File::open(path)?;
            assert_eq!(fs::has_more_chars(&mut file, most)?, wanted);
            let mut rest = String::new();
            file.read_to_string(&mut rest)?;
            assert!(wanted || rest == text);
        }
        Ok(())
    }

    #[test]
    fn a_stream_takes_no_byte_where_none_is_given() -> Result<()> {
        assert_eq!(HostRuntime.stdin().read(&mut [])?, 0);
        assert_eq!(HostRuntime.stdout().write(b"")?, 0);
        HostRuntime.stderr().flush()
    }
}
