//! What is sent: samples or a file, as bytes at any offset; and the checksum of what went past.
use crate::failure::{failed, on, Failure};
use crate::samples;
use std::fs::{metadata, File};
use std::io::ErrorKind;
use std::os::unix::fs::FileExt;
use std::path::Path;
use std::rc::Rc;

#[derive(Clone)]
pub enum Source {
    /// From this sample on, so many bytes.
    Samples {
        first: u64,
        length: u64,
    },
    File {
        file: Rc<File>,
        path: Rc<Path>,
        length: u64,
    },
}

impl Source {
    /// Only a regular file has a length that is known before it is read.
    pub fn of_file(path: &Path) -> Result<Source, Failure> {
        let info = metadata(path).map_err(on(path.display()))?;
        if !info.is_file() {
            return Err(failed(format!("{}: not a regular file", path.display())));
        }
        let file = File::open(path).map_err(on(path.display()))?;
        Ok(Source::File {
            file: Rc::new(file),
            path: path.into(),
            length: info.len(),
        })
    }

    pub fn length(&self) -> u64 {
        match *self {
            Source::Samples { length, .. } | Source::File { length, .. } => length,
        }
    }

    /// The caller stays below the source's length.
    pub fn bytes(&self, offset: u64, to: &mut [u8]) -> Result<(), Failure> {
        match self {
            Source::Samples { first, .. } => {
                samples::bytes(*first, offset, to);
                Ok(())
            }
            Source::File { file, path, .. } => file.read_exact_at(to, offset).map_err(|why| match why.kind() {
                ErrorKind::UnexpectedEof => failed(format!("{}: has become shorter", path.display())),
                _ => failed(format!("{}: {why}", path.display())),
            }),
        }
    }
}

/// FNV-1a's step on words of 8 bytes, with the high half mixed into the low one. How the bytes are cut into pieces does not matter.
pub struct Checksum {
    hash: u64,
    word: u64,
    held: u32, // bytes in word: 0 to 7
}

fn step(hash: u64, word: u64) -> u64 {
    let hash = (hash ^ word).wrapping_mul(0x0100_0000_01b3);
    hash ^ hash >> 32
}

impl Checksum {
    pub fn of_nothing() -> Checksum {
        Checksum {
            hash: 0xcbf2_9ce4_8422_2325,
            word: 0,
            held: 0,
        }
    }

    fn add_byte(&mut self, byte: u8) {
        self.word |= u64::from(byte) << (8 * self.held);
        self.held += 1;
        if self.held == 8 {
            self.hash = step(self.hash, self.word);
            (self.word, self.held) = (0, 0);
        }
    }

    pub fn add(&mut self, bytes: &[u8]) {
        let to_fill = if self.held > 0 { 8 - self.held as usize } else { 0 };
        let (front, rest) = bytes.split_at(to_fill.min(bytes.len()));
        front.iter().for_each(|&byte| self.add_byte(byte));
        let words = rest.chunks_exact(8);
        let tail = words.remainder();
        for word in words {
            self.hash = step(self.hash, u64::from_le_bytes(word.try_into().expect("8 bytes")));
        }
        tail.iter().for_each(|&byte| self.add_byte(byte));
    }

    pub fn value(&self) -> u64 {
        step(step(self.hash, self.word), u64::from(self.held))
    }
}
