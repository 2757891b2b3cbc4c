//! Memory maps: of files that are read, of new files, and of a file with room behind it.

use std::ffi::{c_int, c_void};
use std::fs::File;
use std::io::{self, Seek};
use std::ops::{Deref, DerefMut};
use std::os::fd::AsRawFd;
use std::ptr::{NonNull, null_mut};
use std::sync::atomic::{AtomicBool, Ordering};
use std::thread;

// libc's, with the numbers of x86-64 Linux, which is what the library is for.
unsafe extern "C" {
    fn mmap(
        at: *mut c_void,
        len: usize,
        protection: c_int,
        flags: c_int,
        fd: c_int,
        offset: i64,
    ) -> *mut c_void;
    fn munmap(at: *mut c_void, len: usize) -> c_int;
    fn madvise(at: *mut c_void, len: usize, advice: c_int) -> c_int;
    fn posix_fallocate(fd: c_int, offset: i64, len: i64) -> c_int;
}

const PROT_READ: c_int = 1;
const PROT_WRITE: c_int = 2;
const MAP_SHARED: c_int = 1;
const MAP_PRIVATE: c_int = 2;
const MAP_FIXED: c_int = 0x10;
const MAP_ANONYMOUS: c_int = 0x20;
const MAP_NORESERVE: c_int = 0x4000;
const MADV_DONTNEED: c_int = 4;
const MADV_POPULATE_READ: c_int = 22;
const PAGE: usize = 4096;

/// Pages that are unmapped when it is dropped.
struct Pages {
    at: NonNull<u8>,
    len: usize,
}

// SAFETY: through a borrow that threads share the pages are only read.
unsafe impl Sync for Pages {}

impl Pages {
    /// A map has a byte or more, so nothing is mapped of no bytes. Without a file they are zeros.
    fn map(len: usize, protection: c_int, flags: c_int, file: Option<&File>) -> io::Result<Pages> {
        let fd = file.map_or(-1, AsRawFd::as_raw_fd);
        let flags = if file.is_none() {
            flags | MAP_ANONYMOUS
        } else {
            flags
        };
        if len == 0 {
            return Ok(Pages {
                at: NonNull::dangling(),
                len,
            });
        }
        // SAFETY: the system chooses the address; nothing of ours stands there.
        let at = unsafe { mmap(null_mut(), len, protection, flags, fd, 0) };
        match NonNull::new(at.cast()) {
            Some(at) if at.as_ptr() as isize != -1 => Ok(Pages { at, len }),
            _ => Err(io::Error::last_os_error()),
        }
    }

    /// Bytes of another process's that change meanwhile are other bytes, which each call takes as they come; a file that gets shorter is SIGBUS.
    fn bytes(&self) -> &[u8] {
        // SAFETY: the pages are mapped and can be read as long as this value lives, or there are none.
        unsafe { std::slice::from_raw_parts(self.at.as_ptr(), self.len) }
    }

    /// The bytes from this one on, which were mapped to be written.
    fn bytes_mut(&mut self, from: usize) -> &mut [u8] {
        let len = self.len - from;
        // SAFETY: as in `bytes`, and nobody else has them while this value is borrowed.
        unsafe { std::slice::from_raw_parts_mut(self.at.as_ptr().add(from), len) }
    }
}

impl Drop for Pages {
    fn drop(&mut self) {
        if self.len > 0 {
            // SAFETY: they were mapped with this length, and nobody borrows them any more.
            unsafe { munmap(self.at.as_ptr().cast(), self.len) };
        }
    }
}

/// The bytes of a file, read where they stand.
pub struct Map {
    pages: Pages,
    from: usize,
    file: File,
}

impl Map {
    /// Of standard input, from where it is read next.
    pub fn of(mut file: File, len: u64) -> io::Result<Map> {
        let len = usize::try_from(len).map_err(io::Error::other)?;
        let from = usize::try_from(file.stream_position()?)
            .map_err(io::Error::other)?
            .min(len);
        Ok(Map {
            pages: Pages::map(len, PROT_READ, MAP_SHARED, Some(&file))?,
            from,
            file,
        })
    }
}

impl Deref for Map {
    type Target = [u8];

    fn deref(&self) -> &[u8] {
        &self.pages.bytes()[self.from..]
    }
}

/// Bytes to write: those of a new file, or zeros in memory.
pub struct MapMut(Pages);

impl MapMut {
    /// The file gets its blocks first, so that a full disk is told here and is no SIGBUS later.
    pub fn of(file: &File, len: usize) -> io::Result<MapMut> {
        let length = i64::try_from(len).map_err(io::Error::other)?;
        // SAFETY: the file is open. Of no bytes none are asked for.
        let error = if len > 0 {
            unsafe { posix_fallocate(file.as_raw_fd(), 0, length) }
        } else {
            0
        };
        if error != 0 {
            return Err(io::Error::from_raw_os_error(error));
        }
        Pages::map(len, PROT_READ | PROT_WRITE, MAP_SHARED, Some(file)).map(MapMut)
    }

    pub fn zeros(len: usize) -> io::Result<MapMut> {
        Pages::map(len, PROT_READ | PROT_WRITE, MAP_PRIVATE, None).map(MapMut)
    }
}

impl Deref for MapMut {
    type Target = [u8];

    fn deref(&self) -> &[u8] {
        self.0.bytes()
    }
}

impl DerefMut for MapMut {
    fn deref_mut(&mut self) -> &mut [u8] {
        self.0.bytes_mut(0)
    }
}

/// A file's bytes and room right behind them, without a copy of the file: its whole pages are mapped, and what is behind the last of them is copied.
pub struct Joined {
    pages: Pages,
    len: usize,
}

impl Joined {
    pub fn new(map: Option<&Map>, room: usize) -> io::Result<Joined> {
        let len = map.map_or(0, |map| map.len());
        let mut pages = Pages::map(
            len + room,
            PROT_READ | PROT_WRITE,
            MAP_PRIVATE | MAP_NORESERVE,
            None,
        )?;
        let Some(map) = map else {
            return Ok(Joined { pages, len });
        };
        let whole = if map.from == 0 { len - len % PAGE } else { 0 };
        if whole > 0 {
            let fd = map.file.as_raw_fd();
            // SAFETY: these pages are ours, at a page's start, and nobody borrows them; from now on they are only read.
            let at = unsafe {
                mmap(
                    pages.at.as_ptr().cast(),
                    whole,
                    PROT_READ,
                    MAP_PRIVATE | MAP_FIXED,
                    fd,
                    0,
                )
            };
            if at as isize == -1 {
                return Err(io::Error::last_os_error());
            }
        }
        pages.bytes_mut(whole)[..len - whole].copy_from_slice(&map[whole..]);
        Ok(Joined { pages, len })
    }

    pub fn room(&mut self) -> &mut [u8] {
        self.pages.bytes_mut(self.len)
    }

    /// Gives back the memory of room that is zeros behind its first page: what is read there again is zeros.
    pub fn give_back_zeros(&mut self) {
        let start = (self.len + PAGE).next_multiple_of(PAGE);
        if start < self.pages.len {
            let len = self.pages.len - start;
            // SAFETY: these pages are ours and of no file, and nobody borrows them.
            unsafe { madvise(self.pages.at.as_ptr().add(start).cast(), len, MADV_DONTNEED) };
        }
    }
}

impl Deref for Joined {
    type Target = [u8];

    fn deref(&self) -> &[u8] {
        self.pages.bytes()
    }
}

/// Does work that goes through maps from their start to their end, while a second thread reads them in ahead of it.
pub fn read_ahead<R>(maps: &[&Map], work: impl FnOnce() -> R) -> R {
    let is_done = AtomicBool::new(false);
    thread::scope(|scope| {
        scope.spawn(|| populate(maps, &is_done));
        let result = work();
        is_done.store(true, Ordering::Relaxed);
        result
    })
}

/// A part of each in turn. Where the system cannot, the work itself reads them in.
fn populate(maps: &[&Map], is_done: &AtomicBool) {
    const PART: usize = 4 << 20;
    let longest = maps.iter().map(|map| map.pages.len).max().unwrap_or(0);
    for start in (0..longest).step_by(PART) {
        for pages in maps
            .iter()
            .map(|map| &map.pages)
            .filter(|pages| start < pages.len)
        {
            let len = PART.min(pages.len - start);
            // SAFETY: the part starts at a page of the map and ends within it, and no byte of it changes.
            let failed =
                unsafe { madvise(pages.at.as_ptr().add(start).cast(), len, MADV_POPULATE_READ) }
                    != 0;
            if failed || is_done.load(Ordering::Relaxed) {
                return;
            }
        }
    }
}
