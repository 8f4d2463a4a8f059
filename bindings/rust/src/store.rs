//! Where records are kept.

use crate::codec::Wire;
use crate::config::Hash;
use crate::item::Record;
use std::error::Error;
use std::fs::{self, File, OpenOptions};
use std::io::{self, ErrorKind, Write};
use std::path::{Path, PathBuf};

/// What a host's own part failed by.
pub type BoxError = Box<dyn Error + Send + Sync>;

/// Where an end's records are kept.
///
/// A record is saved whole: its `to_bytes` take the place of the channel's one before, and each of its `secrets` is
/// kept for ever, as later records don't repeat it. With these a revoked commitment of the peer's can be punished.
pub trait Store {
    /// Saves a record, all of it or nothing. Answers only once it is on disk.
    ///
    /// # Errors
    ///
    /// It isn't: then nothing that it covers is sent.
    fn save(&mut self, record: &Record) -> Result<(), BoxError>;

    /// The bytes of a channel's last record; none where there is none.
    ///
    /// # Errors
    ///
    /// They can't be read.
    fn load(&mut self, channel: &Hash) -> Result<Option<Vec<u8>>, BoxError>;
}

/// Records in the files of a folder: two for each channel, one with its record, one with all secrets.
///
/// The secrets go first; a record takes the old one's place once it is on disk. One program has the folder.
#[derive(Debug)]
pub struct FileStore {
    folder: PathBuf,
}

impl FileStore {
    /// A store in a folder, which is made where it isn't there.
    ///
    /// # Errors
    ///
    /// It can't be made.
    pub fn new(folder: impl Into<PathBuf>) -> io::Result<FileStore> {
        let folder = folder.into();
        fs::create_dir_all(&folder)?;
        Ok(FileStore { folder })
    }

    /// The peer's secrets, each with the number of the commitment that it revokes; one may stand twice.
    ///
    /// # Errors
    ///
    /// The file can't be read.
    pub fn secrets(&self, channel: &Hash) -> io::Result<Vec<(u64, Hash)>> {
        let bytes = read(&self.path(channel, "secrets"))?.unwrap_or_default();
        Ok(bytes.chunks_exact(40).filter_map(|one| Wire::from_bytes(one).ok()).collect())
    }

    fn path(&self, channel: &Hash, kind: &str) -> PathBuf {
        let name: String = channel.iter().map(|byte| format!("{byte:02x}")).collect();
        self.folder.join(format!("{name}.{kind}"))
    }

    fn keep_secrets(&self, record: &Record) -> io::Result<()> {
        if record.secrets.is_empty() {
            return Ok(());
        }
        let bytes: Vec<u8> = record.secrets.iter().flat_map(Wire::to_bytes).collect();
        let path = self.path(&record.channel, "secrets");
        let mut file = OpenOptions::new().create(true).append(true).open(path)?;
        // What a crash cut short is passed over.
        let torn = file.metadata()?.len() % 40;
        if torn != 0 {
            file.set_len(file.metadata()?.len() - torn)?;
        }
        file.write_all(&bytes)?;
        file.sync_all()
    }

    fn put_record(&self, record: &Record) -> io::Result<()> {
        let next = self.path(&record.channel, "next");
        let mut file = File::create(&next)?;
        file.write_all(&record.to_bytes())?;
        file.sync_all()?;
        fs::rename(next, self.path(&record.channel, "record"))?;
        File::open(&self.folder)?.sync_all()
    }
}

impl Store for FileStore {
    fn save(&mut self, record: &Record) -> Result<(), BoxError> {
        self.keep_secrets(record)?;
        Ok(self.put_record(record)?)
    }

    fn load(&mut self, channel: &Hash) -> Result<Option<Vec<u8>>, BoxError> {
        Ok(read(&self.path(channel, "record"))?)
    }
}

/// The bytes of a file; none where there is no file.
fn read(path: &Path) -> io::Result<Option<Vec<u8>>> {
    match fs::read(path) {
        Ok(bytes) => Ok(Some(bytes)),
        Err(error) if error.kind() == ErrorKind::NotFound => Ok(None),
        Err(error) => Err(error),
    }
}
