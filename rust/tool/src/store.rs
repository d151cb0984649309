//! Files are written whole or not at all: beside their place first, then moved there in one step.
use crate::{end::End, read};
use std::{
    ffi::{OsStr, OsString},
    fs::{self, File, TryLockError},
    io::{self, Write},
    os::unix::fs::{chown, MetadataExt},
    path::{Path, PathBuf},
    process,
};

/// The folder of a file, held: while it is, no other run of the tool that asks for it goes on. So what was read from the file still
/// stands there when the file is written.
pub struct Held {
    _folder: File,
}

pub fn hold(file: &Path) -> Result<Held, End> {
    if file == Path::new("-") {
        return Err(End::bad("this is written to a file, and `-` is none"));
    }
    held(file).map_err(|error| cannot(file, &error))
}

fn held(file: &Path) -> io::Result<Held> {
    let target = target(file);
    // first of all: what cannot be replaced need not be waited for
    replaceable(&target)?;
    let folder = match target.parent() {
        Some(folder) if folder != Path::new("") => File::open(folder)?,
        _ => File::open(".")?,
    };
    if let Err(TryLockError::WouldBlock) = folder.try_lock() {
        _ = writeln!(io::stderr(), "kwalgimo: another run is writing beside {}; waiting", read::name(file.as_os_str()));
    }
    match folder.lock() {
        // there are file systems that cannot
        Err(error) if error.kind() != io::ErrorKind::Unsupported => Err(error),
        _ => Ok(Held { _folder: folder }),
    }
}

/// Writes a file whose folder is held. Where it cannot, what stood there stays as it was.
pub fn write(_: &Held, file: &Path, bytes: &[u8]) -> Result<(), End> {
    stored(&target(file), bytes).map_err(|error| cannot(file, &error))
}

/// Writes a file, if nothing stands there or it may be replaced; never one that was read for it.
pub fn write_new(file: &Path, bytes: &[u8], replace: bool, sources: &[&OsStr]) -> Result<(), End> {
    let held = hold(file)?;
    let name = read::name(file.as_os_str());
    if file.symlink_metadata().is_ok() && !replace {
        return Err(End::bad(format!("{name} is there already; with --replace it is replaced")));
    }
    if sources.iter().any(|source| is_same(source, file)) {
        return Err(End::bad(format!("{name} is read by this command, and is not written over")));
    }
    write(&held, file, bytes)
}

/// `-` is what standard input was taken from.
fn is_same(source: &OsStr, file: &Path) -> bool {
    let source = if source == "-" { Path::new("/dev/stdin") } else { Path::new(source) };
    source.canonicalize().is_ok_and(|source| source == target(file))
}

fn cannot(file: &Path, error: &io::Error) -> End {
    End::bad(format!("{} cannot be written: {error}", read::name(file.as_os_str())))
}

/// A link stays a link: what it leads to is replaced.
fn target(file: &Path) -> PathBuf {
    file.canonicalize().unwrap_or_else(|_| file.to_path_buf())
}

fn stored(target: &Path, bytes: &[u8]) -> io::Result<()> {
    let old = replaceable(target)?;
    let beside = beside(target);
    let part = File::create_new(&beside)?;
    let moved = filled(part, &beside, old, bytes).and_then(|()| fs::rename(&beside, target));
    if moved.is_err() {
        _ = fs::remove_file(&beside);
    }
    moved
}

/// What stands there now, if anything. A folder lets its files be replaced, also those that may not be written: so that is asked of the
/// file itself.
fn replaceable(target: &Path) -> io::Result<Option<fs::Metadata>> {
    if target.symlink_metadata().is_err() {
        return Ok(None);
    }
    let old = target.metadata().map_err(|_| io::Error::other("it is a link that leads nowhere"))?;
    if !old.is_file() {
        return Err(io::Error::other("it is a folder or a device, and no file"));
    }
    if old.permissions().readonly() {
        return Err(io::Error::other("it is write-protected"));
    }
    File::options().write(true).open(target)?;
    Ok(Some(old))
}

/// A name in the same folder, so that the move is one step. One that a stopped run has left there is passed by.
fn beside(target: &Path) -> PathBuf {
    let name = |turn: usize| {
        let mut name = OsString::from(".");
        name.push(target.file_name().unwrap_or_default());
        name.push(format!(".{}.{turn}.part", process::id()));
        target.with_file_name(name)
    };
    (0..100).map(name).find(|beside| beside.symlink_metadata().is_err()).unwrap_or_else(|| name(100))
}

fn filled(mut part: File, beside: &Path, old: Option<fs::Metadata>, bytes: &[u8]) -> io::Result<()> {
    if let Some(old) = old {
        // not everybody may give a file away; then it stays the writer's
        _ = chown(beside, None, Some(old.gid()));
        _ = chown(beside, Some(old.uid()), None);
        part.set_permissions(old.permissions())?;
    }
    part.write_all(bytes)?;
    part.sync_all()
}
