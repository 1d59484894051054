// A file that is there whole or not at all: written beside its place, brought to the disk, and then moved there.
use std::ffi::OsStr;
use std::fs::{self, File, OpenOptions};
use std::io::{self, Write};
use std::os::unix::fs::MetadataExt;
use std::path::{Path, PathBuf};

/// A place where a file is to stand.
pub struct Place {
    path: PathBuf,
    /// No file but a device or a pipe, which takes bytes as they come.
    stream: bool,
}

/// A file that is written and waits beside its place; it goes away with this, unless it is moved.
pub struct Written<'a> {
    place: &'a Place,
    beside: Option<PathBuf>,
}

fn folder(path: &Path) -> &Path {
    path.parent().filter(|folder| !folder.as_os_str().is_empty()).unwrap_or(Path::new("."))
}

impl Place {
    /// The place, if a file can be put there, which is tried. A link is followed.
    pub fn new(name: &OsStr) -> io::Result<Place> {
        let named = PathBuf::from(name);
        match fs::metadata(&named) {
            Ok(found) if found.is_dir() => Err(io::ErrorKind::IsADirectory.into()),
            Ok(found) if !found.is_file() => Ok(Place { path: named, stream: true }),
            Ok(_) => {
                OpenOptions::new().write(true).open(&named)?;
                Place { path: fs::canonicalize(&named)?, stream: false }.tried()
            }
            Err(error) if fs::symlink_metadata(&named).is_ok() => Err(error),
            Err(_) if name.as_encoded_bytes().ends_with(b"/") => Err(io::ErrorKind::IsADirectory.into()),
            Err(_) => Place { path: named, stream: false }.tried(),
        }
    }

    fn tried(self) -> io::Result<Place> {
        let (_, beside) = self.beside()?;
        fs::remove_file(beside)?;
        Ok(self)
    }

    /// A new file beside the place. What a run left that was killed keeps its name.
    fn beside(&self) -> io::Result<(File, PathBuf)> {
        let mut number = 0;
        loop {
            let path = folder(&self.path).join(format!(".fit-{}-{number}.partial", std::process::id()));
            match File::create_new(&path) {
                Err(error) if error.kind() == io::ErrorKind::AlreadyExists => number += 1,
                made => return Ok((made?, path)),
            }
        }
    }

    /// Whether a file of this name is the one that stands here, or would.
    pub fn is(&self, name: &OsStr) -> bool {
        let number = |path: &Path| fs::metadata(path).map(|found| (found.dev(), found.ino())).ok();
        let alike = |one: &Path, other: &Path| number(one).is_some_and(|here| Some(here) == number(other));
        let name = Path::new(name);
        !self.stream && (alike(&self.path, name) || self.path.file_name() == name.file_name() && alike(folder(&self.path), folder(name)))
    }

    /// The bytes on the disk, beside the place. A stream has them now, for good.
    pub fn write(&self, bytes: &[u8]) -> io::Result<Written<'_>> {
        if self.stream {
            OpenOptions::new().write(true).open(&self.path)?.write_all(bytes)?;
            return Ok(Written { place: self, beside: None });
        }
        let (mut file, beside) = self.beside()?;
        let written = Written { place: self, beside: Some(beside) };
        if let Ok(found) = fs::metadata(&self.path) {
            file.set_permissions(found.permissions())?;
        }
        file.write_all(bytes)?;
        file.sync_all()?;
        Ok(written)
    }
}

impl Written<'_> {
    /// To its place, in one step.
    pub fn put(mut self) -> io::Result<()> {
        let Some(beside) = &self.beside else { return Ok(()) };
        fs::rename(beside, &self.place.path)?;
        self.beside = None;
        File::open(folder(&self.place.path))?.sync_all()
    }
}

impl Drop for Written<'_> {
    fn drop(&mut self) {
        if let Some(beside) = &self.beside {
            let _ = fs::remove_file(beside);
        }
    }
}

#[cfg(test)]
mod tests {
    use super::*;

    #[test]
    fn a_file_is_put_whole_and_nothing_is_left_beside_it() {
        let folder = std::env::temp_dir().join(format!("fit-put-{}", std::process::id()));
        fs::create_dir(&folder).unwrap();
        let (file, link) = (folder.join("weights"), folder.join("link"));
        let place = Place::new(file.as_os_str()).unwrap();
        drop(place.write(b"never put").unwrap());
        assert!(!file.exists());
        place.write(b"one").unwrap().put().unwrap();
        std::os::unix::fs::symlink("weights", &link).unwrap();
        Place::new(link.as_os_str()).unwrap().write(b"two").unwrap().put().unwrap();
        assert_eq!(fs::read(&file).unwrap(), b"two");
        assert!(fs::symlink_metadata(&link).unwrap().is_symlink());
        assert_eq!(fs::read_dir(&folder).unwrap().count(), 2);
        assert!(place.is(link.as_os_str()) && !place.is(folder.as_os_str()));
        let (new, dotted) = (Place::new(folder.join("new").as_os_str()).unwrap(), folder.join(".").join("new"));
        assert!(new.is(dotted.as_os_str()) && !new.is(file.as_os_str()) && !new.is(OsStr::new("new")));
        assert!(Place::new(folder.as_os_str()).is_err() && Place::new(folder.join("no/file").as_os_str()).is_err());
        assert!(Place::new(OsStr::new("/dev/full")).unwrap().write(b"x").is_err());
        fs::remove_dir_all(&folder).unwrap();
    }
}
