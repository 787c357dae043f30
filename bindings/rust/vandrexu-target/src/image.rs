//! A file that holds the volume. Each unit goes into a journal beside it first, whole and with a sum, and into the file
//! then: whoever is killed between the two finds the unit in the journal, or no trace of it.
use std::fs::{File, OpenOptions};
use std::io::{self, Read};
use std::os::unix::fs::FileExt;
use std::path::{Path, PathBuf};
use std::{error, fmt};
use vandrexu::BLOCK;
use vandrexu_wire::{crc32c, put32, put64, u32_at, u64_at};

/// A file that holds a volume.
#[derive(Debug)]
pub struct Image {
    file: File,
    journal: File,
    at: u64,
    /// Records that aren't in the journal yet.
    records: Vec<u8>,
}

/// Why a file is no image.
#[derive(Debug)]
pub enum ImageError {
    /// What the system says.
    System(PathBuf, io::Error),
    /// It is as long as another volume, or as none.
    Length(PathBuf, u64),
    /// Another target has it.
    InUse(PathBuf),
}

impl fmt::Display for ImageError {
    fn fmt(&self, f: &mut fmt::Formatter<'_>) -> fmt::Result {
        match self {
            ImageError::System(path, error) => write!(f, "{}: {error}", path.display()),
            ImageError::Length(path, length) => {
                write!(f, "{}: {length} bytes are more than the volume has, or no whole blocks", path.display())
            }
            ImageError::InUse(path) => write!(f, "{}: another target has it", path.display()),
        }
    }
}

impl error::Error for ImageError {}

/// The head of a record: a mark, how many blocks there are, the first of them, and the sum of all that follows the sum.
const HEAD: usize = 20;
const MARK: u32 = 0x314A_5856;

/// A journal that is longer, in bytes, begins anew.
const LONG: u64 = 1 << 20;

impl Image {
    /// Opens the file of a volume with this number of blocks, or makes one, and writes what its journal has.
    ///
    /// # Errors
    /// What the system says; a file of another volume; one that another target has.
    pub fn open(path: &Path, blocks: u32) -> Result<Image, ImageError> {
        let system = |error| ImageError::System(path.into(), error);
        let open = |path: &Path| OpenOptions::new().read(true).write(true).create(true).truncate(false).open(path);
        let file = open(path).map_err(system)?;
        file.try_lock().map_err(|_| ImageError::InUse(path.into()))?;
        let (length, wanted) = (file.metadata().map_err(system)?.len(), u64::from(blocks) * BLOCK as u64);
        if length > wanted || length % BLOCK as u64 != 0 {
            return Err(ImageError::Length(path.into(), length));
        }
        file.set_len(wanted).map_err(system)?;
        let mut beside = path.as_os_str().to_owned();
        beside.push(".journal");
        let mut journal = open(Path::new(&beside)).map_err(system)?;
        let mut found = vec![];
        journal.read_to_end(&mut found).map_err(system)?;
        for (slba, data) in whole_records(&found) {
            file.write_all_at(data, slba * BLOCK as u64).map_err(system)?;
        }
        journal.set_len(0).map_err(system)?;
        Ok(Image { file, journal, at: 0, records: vec![] })
    }

    /// The bytes of blocks from this one on; fewer, at the end.
    ///
    /// # Errors
    /// What the system says.
    pub fn read(&self, slba: u64, room: &mut [u8]) -> io::Result<()> {
        self.file.read_exact_at(room, slba * BLOCK as u64)
    }

    /// Notes a unit that has ended.
    pub fn note(&mut self, slba: u64, data: &[u8]) {
        let at = self.records.len();
        self.records.resize(at + HEAD, 0);
        let head = &mut self.records[at..];
        put32(head, 0, MARK);
        put32(head, 8, (data.len() / BLOCK) as u32);
        put64(head, 12, slba);
        self.records.extend_from_slice(data);
        let sum = crc32c(&self.records[at + 8..]);
        put32(&mut self.records, at + 4, sum);
    }

    /// Writes all that was noted: to the journal, and then into the file.
    ///
    /// # Errors
    /// What the system says.
    pub fn commit(&mut self) -> io::Result<()> {
        if self.records.is_empty() {
            return Ok(());
        }
        self.journal.write_all_at(&self.records, self.at)?;
        self.at += self.records.len() as u64;
        for (slba, data) in whole_records(&self.records) {
            self.file.write_all_at(data, slba * BLOCK as u64)?;
        }
        self.records.clear();
        if self.at > LONG {
            self.journal.set_len(0)?;
            self.at = 0;
        }
        Ok(())
    }
}

/// The records up to the first that isn't whole: the first block of each, and its data.
fn whole_records(mut bytes: &[u8]) -> impl Iterator<Item = (u64, &[u8])> {
    std::iter::from_fn(move || {
        if bytes.len() < HEAD || u32_at(bytes, 0) != MARK {
            return None;
        }
        let end = (u32_at(bytes, 8) as usize).checked_mul(BLOCK)?.checked_add(HEAD)?;
        let record = bytes.get(..end)?;
        if crc32c(&record[8..]) != u32_at(record, 4) {
            return None;
        }
        bytes = &bytes[end..];
        Some((u64_at(record, 12), &record[HEAD..]))
    })
}
