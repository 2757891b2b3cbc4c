//! Inputs, and outputs that take the old files' place when they are complete.

use crate::maps::{Map, MapMut};
use crate::progress;
use crate::report::{Failure, shown};
use crate::signals;
use std::ffi::{OsStr, OsString};
use std::fs::{self, File, Metadata};
use std::io::{self, BufRead, BufReader, Read, Write};
use std::os::fd::AsFd;
use std::os::unix::ffi::OsStrExt;
use std::os::unix::fs::{FileTypeExt, MetadataExt, OpenOptionsExt, fchown};
use std::path::{Path, PathBuf};

pub enum Input {
    Map(Map),
    Stream(BufReader<Stream>),
}

/// What is read as it comes, and counted.
pub struct Stream(File);

impl Read for Stream {
    fn read(&mut self, room: &mut [u8]) -> io::Result<usize> {
        let count = self.0.read(room)?;
        progress::add(count);
        Ok(count)
    }
}

/// A regular file is mapped, and `-`, standard input, where it is one; everything else is read as it comes.
pub fn open(name: &OsStr) -> Result<Input, Failure> {
    let failed = |error| {
        let hint = "a file that exists and that you may read";
        Failure::system("cannot read", "a file", &error, hint).of(name)
    };
    let file = if name == "-" {
        io::stdin().as_fd().try_clone_to_owned().map(File::from)
    } else {
        File::open(name)
    };
    let file = file.map_err(failed)?;
    let about = file.metadata().map_err(failed)?;
    if about.is_dir() {
        return Err(of_folder("cannot read").of(name));
    }
    // A file of no bytes may have some all the same, in /proc.
    if about.is_file() && about.len() > 0 {
        return Map::of(file, about.len()).map(Input::Map).map_err(failed);
    }
    Ok(Input::Stream(BufReader::with_capacity(
        1 << 16,
        Stream(file),
    )))
}

/// A file that is needed as a whole.
pub fn open_whole(name: &OsStr) -> Result<Map, Failure> {
    // To open a pipe waits for its writer, who need not come.
    let is_pipe = name != "-" && fs::metadata(name).is_ok_and(|about| about.file_type().is_fifo());
    let input = if is_pipe {
        Err(not_whole())
    } else {
        open(name)
    };
    input
        .and_then(Input::whole)
        .map_err(|failure| failure.of(name))
}

fn of_folder(what: &str) -> Failure {
    Failure::new(what, "a file", "a folder", "the name of a file in it")
}

fn not_whole() -> Failure {
    let (what, received) = ("it is needed as a whole", "a pipe or a device");
    Failure::new(what, "a regular file", received, "write it to a file first")
}

impl Input {
    pub fn whole(self) -> Result<Map, Failure> {
        match self {
            Input::Map(map) => Ok(map),
            Input::Stream(stream) if stream.get_ref().0.metadata()?.is_file() => {
                Ok(Map::of(stream.into_inner().0, 0)?)
            }
            Input::Stream(_) => Err(not_whole()),
        }
    }

    /// By which it is told what it is.
    pub fn first_bytes(&mut self) -> io::Result<&[u8]> {
        match self {
            Input::Map(map) => Ok(map),
            Input::Stream(stream) => stream.fill_buf(),
        }
    }
}

/// Errors of reading, where the name is put in by who knows it.
impl From<io::Error> for Failure {
    fn from(error: io::Error) -> Failure {
        let hint = "a file that can be read to its end";
        Failure::system("cannot read", "its bytes to the end", &error, hint)
    }
}

/// How many bytes those of these that are regular files have together.
pub fn total_size(names: &[OsString]) -> usize {
    let size = |name: &OsString| {
        let name = if name == "-" {
            OsStr::new("/dev/stdin")
        } else {
            name
        };
        let about = fs::metadata(name).ok().filter(fs::Metadata::is_file);
        about.map_or(0, |about| about.len() as usize)
    };
    names.iter().map(size).sum()
}

/// The name with more at its end.
pub fn with_ending(name: &OsStr, ending: &str) -> OsString {
    let mut name = name.to_owned();
    name.push(ending);
    name
}

// ---- outputs

/// A file that is written: a new one that takes the place of the old one when it is complete; or what is no regular file, straight.
pub struct Output {
    name: OsString,
    file: File,
    part: Option<Part>,
}

impl Output {
    /// `replace` lets it take the place of a file that exists.
    pub fn create(name: &OsStr, replace: bool) -> Result<Output, Failure> {
        let failed = |error| Output::failed(name, &error);
        let straight = |file| {
            Ok(Output {
                name: name.to_owned(),
                file,
                part: None,
            })
        };
        if name == "-" {
            return straight(
                io::stdout()
                    .as_fd()
                    .try_clone_to_owned()
                    .map_err(failed)?
                    .into(),
            );
        }
        let old = match fs::metadata(name) {
            Err(error) if error.kind() != io::ErrorKind::NotFound => return Err(failed(error)),
            about => about.ok(),
        };
        match &old {
            Some(about) if about.is_dir() => {
                return Err(of_folder("cannot write").of(name));
            }
            Some(about) if !about.is_file() => {
                return straight(File::options().write(true).open(name).map_err(failed)?);
            }
            Some(_) if !replace => return Err(Output::exists(name)),
            _ => (),
        }
        let (file, part) = Part::create(target_of(name), old, replace).map_err(failed)?;
        Ok(Output {
            name: name.to_owned(),
            file,
            part: Some(part),
        })
    }

    fn failed(name: &OsStr, error: &io::Error) -> Failure {
        use io::ErrorKind::*;
        let hint = match error.kind() {
            NotFound => "a folder that exists",
            PermissionDenied | ReadOnlyFilesystem => "a file and a folder that you may write to",
            StorageFull | QuotaExceeded | FileTooLarge => "a place with more room",
            _ => "another place for it",
        };
        Failure::system("cannot write", "a file that can be written", error, hint).of(name)
    }

    fn exists(name: &OsStr) -> Failure {
        let (expected, received) = ("a new name, or --force", "the name of a file that exists");
        Failure::new("it exists", expected, received, "--force to replace it").of(name)
    }

    pub fn name(&self) -> &OsStr {
        &self.name
    }

    pub fn is_standard_output(&self) -> bool {
        self.name == "-"
    }

    pub fn write(&mut self, bytes: &[u8]) -> Result<(), Failure> {
        self.file
            .write_all(bytes)
            .map_err(|error| Output::failed(&self.name, &error))
    }

    /// So many bytes to write, which `finish_map` takes: those of the new file, or zeros in memory.
    pub fn map(&self, len: usize) -> Result<MapMut, Failure> {
        let map = if self.part.is_some() {
            MapMut::of(&self.file, len)
        } else {
            MapMut::zeros(len)
        };
        map.map_err(|error| Output::failed(&self.name, &error))
    }

    pub fn finish_map(mut self, map: MapMut) -> Result<(), Failure> {
        self.sync_map(map)?;
        self.take_place()
    }

    pub fn finish(self) -> Result<(), Failure> {
        self.sync()?;
        self.take_place()
    }

    pub fn sync_map(&mut self, map: MapMut) -> Result<(), Failure> {
        if self.part.is_none() {
            self.write(&map)?;
        }
        drop(map);
        self.sync()
    }

    /// The new file is on the disk; where it takes its place after this, no crash can leave a part of it there.
    pub fn sync(&self) -> Result<(), Failure> {
        let synced = self.part.as_ref().map_or(Ok(()), |_| self.file.sync_all());
        synced.map_err(|error| Output::failed(&self.name, &error))
    }

    pub fn take_place(self) -> Result<(), Failure> {
        let placed = self.part.map_or(Ok(()), Part::take_place);
        placed.map_err(|error| match error.kind() {
            io::ErrorKind::AlreadyExists => Output::exists(&self.name),
            _ => Output::failed(&self.name, &error),
        })
    }
}

/// Prints on standard output; an error of it is told, as it would not be by `print!`.
pub fn print(text: impl AsRef<[u8]>) -> Result<(), Failure> {
    Output::create(OsStr::new("-"), true)?.write(text.as_ref())
}

/// The same of a file that stands in its place, which is said where this cannot be printed.
pub fn report(written: &OsStr, text: impl AsRef<[u8]>) -> Result<(), Failure> {
    let done = format!("{} is written; its report could not be", shown(written));
    print(text).map_err(|failure| failure.after(&done))
}

/// A regular file that this user may write.
pub fn check_writable(name: &OsStr) -> Result<(), Failure> {
    let opened = File::options().write(true).open(name);
    opened
        .map(drop)
        .map_err(|error| Output::failed(name, &error))
}

/// While what this returns lives, another run that asks for the folder of this file, or of what it links to, waits.
pub fn alone_in_folder(name: &OsStr) -> Result<File, Failure> {
    let target = target_of(name);
    let folder = target.parent().filter(|folder| *folder != Path::new(""));
    let locked = File::open(folder.unwrap_or(Path::new("."))).and_then(|folder| {
        folder.lock()?;
        Ok(folder)
    });
    locked.map_err(|error| Output::failed(name, &error))
}

/// Where the links of a name lead, also to a name that does not exist.
fn target_of(name: &OsStr) -> PathBuf {
    const MOST_LINKS: usize = 40; // as many as the system follows
    let mut path = PathBuf::from(name);
    for _ in 0..MOST_LINKS {
        let Ok(link) = fs::read_link(&path) else {
            break;
        };
        path = path.parent().unwrap_or(Path::new("")).join(link);
    }
    path
}

/// A new file beside the one whose place it takes. Dropped without that, it is taken away.
struct Part {
    path: PathBuf,
    target: PathBuf,
    /// Whether a file may stand where it takes its place.
    replace: bool,
    is_renamed: bool,
    slot: Option<usize>,
}

impl Part {
    /// With mode and owner of the old file, as far as this user may give them.
    fn create(target: PathBuf, old: Option<Metadata>, replace: bool) -> io::Result<(File, Part)> {
        // Until it has the old one's mode nobody else may read it.
        let mode = if old.is_some() { 0o600 } else { 0o666 };
        let mut options = File::options();
        options.read(true).write(true).create_new(true).mode(mode);
        let mut number = 0;
        let (file, path) = loop {
            let path = part_name(&target, number)?;
            match options.open(&path) {
                // Of another run, or left by a crash: it is not ours to take away.
                Err(error) if error.kind() == io::ErrorKind::AlreadyExists => number += 1,
                file => break (file?, path),
            }
        };
        let slot = signals::remember(&path);
        let part = Part {
            path,
            target,
            replace,
            is_renamed: false,
            slot,
        };
        if let Some(old) = old {
            let _ = fchown(&file, None, Some(old.gid())); // the group first, which may be allowed alone
            let _ = fchown(&file, Some(old.uid()), None);
            file.set_permissions(old.permissions())?;
        }
        Ok((file, part))
    }

    fn take_place(mut self) -> io::Result<()> {
        // A link is an error where a file came meanwhile; a file system without links has but the other way.
        if !self.replace {
            match fs::hard_link(&self.path, &self.target) {
                Err(error) if has_no_links(&error) => (),
                linked => return linked,
            }
        }
        fs::rename(&self.path, &self.target)?;
        self.is_renamed = true;
        Ok(())
    }
}

fn part_name(target: &Path, number: usize) -> io::Result<PathBuf> {
    const LONGEST: usize = 200; // of a name's 255 bytes; the rest is for the numbers and the ending
    let name = target.file_name().ok_or(io::ErrorKind::InvalidFilename)?;
    let name = name.as_bytes();
    let mut part = OsString::from(".");
    part.push(OsStr::from_bytes(&name[..name.len().min(LONGEST)]));
    part.push(format!(".{}.{number}.part", std::process::id()));
    Ok(target.with_file_name(part))
}

fn has_no_links(error: &io::Error) -> bool {
    use io::ErrorKind::{PermissionDenied, Unsupported};
    matches!(error.kind(), PermissionDenied | Unsupported)
}

impl Drop for Part {
    fn drop(&mut self) {
        if !self.is_renamed {
            let _ = fs::remove_file(&self.path); // there is nothing else to do about it
        }
        if let Some(slot) = self.slot {
            signals::forget(slot);
        }
    }
}
