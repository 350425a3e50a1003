//! Files.
use super::io;
use super::rt::{Files, HostRuntime};

/// A file that was opened.
pub(crate) trait OpenFile {
    /// Has the system write all of it to the disk.
    fn sync_all(&self) -> io::Result<()>;
    /// Sets who may read, write and execute it.
    fn set_permissions(&self, permissions: Permissions) -> io::Result<()>;
}

impl OpenFile for std::fs::File {
    fn sync_all(&self) -> io::Result<()> {
        std::fs::File::sync_all(self)
    }

    #[cfg(unix)]
    fn set_permissions(&self, permissions: Permissions) -> io::Result<()> {
        use std::os::unix::fs::PermissionsExt;
        std::fs::File::set_permissions(self, std::fs::Permissions::from_mode(permissions.mode))
    }

    /// Other systems have no permissions of this form.
    #[cfg(not(unix))]
    fn set_permissions(&self, _permissions: Permissions) -> io::Result<()> {
        Ok(())
    }
}

/// Who may read, write and execute a file.
pub(crate) struct Permissions {
    #[cfg_attr(not(unix), expect(dead_code))]
    mode: u32,
}

/// The form in which Unix has permissions.
pub(crate) trait PermissionsExt {
    /// Returns the permissions with these bits.
    fn from_mode(mode: u32) -> Permissions;
}

impl PermissionsExt for Permissions {
    fn from_mode(mode: u32) -> Permissions {
        Permissions { mode }
    }
}

/// How a file is opened.
pub(crate) struct OpenOptions(std::fs::OpenOptions);

impl OpenOptions {
    pub(crate) fn new() -> OpenOptions {
        OpenOptions(std::fs::OpenOptions::new())
    }

    /// Whether it is written.
    pub(crate) fn write(&mut self, write: bool) -> &mut OpenOptions {
        self.0.write(write);
        self
    }

    /// Whether it is created, and nothing may have its name.
    pub(crate) fn create_new(&mut self, create_new: bool) -> &mut OpenOptions {
        self.0.create_new(create_new);
        self
    }

    /// Opens the file with a name.
    pub(crate) fn open<R: Files>(&self, files: &R, path: &str) -> io::Result<R::File> {
        files.open(&self.0, path)
    }
}

/// What Unix has of opening a file.
pub(crate) trait OpenOptionsExt {
    /// Sets the permissions of a file that is created, less the umask.
    fn mode(&mut self, mode: u32) -> &mut OpenOptions;
}

impl OpenOptionsExt for OpenOptions {
    fn mode(&mut self, mode: u32) -> &mut OpenOptions {
        #[cfg(unix)]
        std::os::unix::fs::OpenOptionsExt::mode(&mut self.0, mode);
        #[cfg(not(unix))]
        let _ = mode;
        self
    }
}

/// What the system says about a file.
pub(crate) struct Metadata {
    is_file: bool,
    node: (u64, u64),
    mode: u32,
}

impl Metadata {
    pub(crate) fn is_file(&self) -> bool {
        self.is_file
    }

    #[cfg(unix)]
    fn of(_path: &str, there: std::fs::Metadata) -> io::Result<Metadata> {
        use std::os::unix::fs::MetadataExt;
        let (is_file, node) = (there.is_file(), (there.dev(), there.ino()));
        let mode = there.mode();
        Ok(Metadata {
            is_file,
            node,
            mode,
        })
    }

    /// Two paths lead to one file if they are one path in the system's form. A hash of it takes the place of the inode. No file
    /// has a mode.
    #[cfg(not(unix))]
    fn of(path: &str, there: std::fs::Metadata) -> io::Result<Metadata> {
        use std::hash::{DefaultHasher, Hash, Hasher};
        let mut hasher = DefaultHasher::new();
        std::fs::canonicalize(path)?.hash(&mut hasher);
        let (is_file, node) = (there.is_file(), (0, hasher.finish()));
        Ok(Metadata {
            is_file,
            node,
            mode: 0,
        })
    }
}

/// How the system identifies a file.
pub(crate) trait MetadataExt {
    /// The number of its device.
    fn dev(&self) -> u64;
    /// Its number there.
    fn ino(&self) -> u64;
    /// Its kind and permissions.
    fn mode(&self) -> u32;
}

impl MetadataExt for Metadata {
    fn dev(&self) -> u64 {
        self.node.0
    }

    fn ino(&self) -> u64 {
        self.node.1
    }

    fn mode(&self) -> u32 {
        self.mode
    }
}

/// The bytes of a file. What is refused memory is an error of that kind.
pub(crate) fn read(_rt: &HostRuntime, path: &str) -> io::Result<Vec<u8>> {
    std::fs::read(path)
}

pub(crate) fn metadata<R: Files>(_files: &R, path: &str) -> io::Result<Metadata> {
    Metadata::of(path, std::fs::metadata(path)?)
}

pub(crate) fn symlink_metadata<R: Files>(_files: &R, path: &str) -> io::Result<Metadata> {
    Metadata::of(path, std::fs::symlink_metadata(path)?)
}

pub(crate) fn rename<R: Files>(_files: &R, from: &str, to: &str) -> io::Result<()> {
    std::fs::rename(from, to)
}

pub(crate) fn remove_file<R: Files>(_files: &R, path: &str) -> io::Result<()> {
    std::fs::remove_file(path)
}
