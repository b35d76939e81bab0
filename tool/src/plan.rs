//! What is to be done, known and checked before any work: every target, that no two are the same, that none is an
//! input, and that the folders are there.

use crate::arguments::Enhance;
use crate::report::name;
use crate::save;
use std::collections::{BTreeMap, BTreeSet, HashMap};
use std::ffi::OsString;
use std::fs::{self, Metadata};
use std::io;
use std::os::unix::fs::MetadataExt;
use std::path::{Component, Path, PathBuf};

/// A file to enhance.
pub struct Item {
    pub source: PathBuf,
    /// Where the frame is written.
    pub target: PathBuf,
    /// Where the plane is written, if it is.
    pub plane: Option<PathBuf>,
    /// Why it cannot be enhanced, where that is known beforehand.
    pub failed: Option<String>,
}

/// The files to enhance, in the order of the arguments and of their names, and how many others lie beside them.
pub struct Plan {
    pub items: Vec<Item>,
    pub passed_over: usize,
}

/// A file is the same by any of its paths: the numbers of its device and in it.
type Identity = (u64, u64);

/// Files that are read.
pub type Inputs<'a> = BTreeMap<Identity, &'a PathBuf>;

/// The plan of a command, or what is wrong with it. The folders for the results are made.
pub fn plan(arguments: &Enhance) -> Result<Plan, String> {
    let mut walk = Walk { arguments, results: resolved(&arguments.to), items: Vec::new(), passed_over: 0 };
    for path in &arguments.paths {
        walk.given(path)?;
    }
    let Walk { items, passed_over, .. } = walk;
    if items.is_empty() {
        return Err("there is no file named .ppm or .pnm in what is given".to_owned());
    }
    let items = distinct(items)?;
    no_input(&items, arguments)?;
    make_folders(&items, arguments)?;
    Ok(Plan { items, passed_over })
}

/// A walk over the given paths.
struct Walk<'a> {
    arguments: &'a Enhance,
    /// The folder for the results, which is not walked.
    results: PathBuf,
    items: Vec<Item>,
    passed_over: usize,
}

impl Walk<'_> {
    /// A path as it is given. A folder's results are in a folder of its name, and so are a file's.
    fn given(&mut self, path: &Path) -> Result<(), String> {
        let about = |error: io::Error| format!("{}: {error}", name(path));
        fs::symlink_metadata(path).map_err(about)?;
        match fs::metadata(path) {
            Ok(metadata) if metadata.is_dir() => {
                let folder = fs::canonicalize(path).map_err(about)?;
                if folder == self.results {
                    return Err(format!("{}: it is the folder for the results too", name(path)));
                }
                let below = last_name(path).or_else(|| last_name(&folder)).unwrap_or_default();
                self.folder(path, Path::new(&below));
            }
            found => {
                let file = path.file_name().ok_or_else(|| format!("{}: it names no file", name(path)))?;
                let folder = match path.parent() {
                    None => None,
                    Some(folder) if folder.components().all(|part| part == Component::CurDir) => None,
                    Some(folder) => last_name(folder).or_else(|| last_name(&fs::canonicalize(folder).ok()?)),
                };
                let below = folder.map(PathBuf::from).unwrap_or_default().join(file);
                self.file(path.to_owned(), &below, found);
            }
        }
        Ok(())
    }

    /// All frames of a folder and of the folders in it, by name.
    fn folder(&mut self, folder: &Path, below: &Path) {
        let entries = fs::read_dir(folder).and_then(|entries| entries.collect::<io::Result<Vec<_>>>());
        let mut entries = match entries {
            Ok(entries) => entries,
            Err(error) => return self.failed(folder.to_owned(), below, format!("it cannot be read: {error}")),
        };
        entries.sort_by_key(fs::DirEntry::file_name);
        for entry in entries {
            let (path, below) = (entry.path(), below.join(entry.file_name()));
            let found = fs::metadata(&path);
            let is_folder = found.as_ref().is_ok_and(Metadata::is_dir);
            let is_link = entry.file_type().is_ok_and(|kind| kind.is_symlink());
            if is_folder && fs::canonicalize(&path).is_ok_and(|path| path == self.results) {
                continue;
            }
            if is_hidden(&path) || (is_folder && is_link) || (!is_folder && !is_frame_name(&path)) {
                self.passed_over += 1;
            } else if is_folder {
                self.folder(&path, &below);
            } else {
                self.file(path, &below, found);
            }
        }
    }

    fn file(&mut self, source: PathBuf, below: &Path, found: io::Result<Metadata>) {
        match found {
            Ok(metadata) if metadata.is_file() => self.push(source, below, None),
            Ok(_) => self.failed(source, below, "it is no file".to_owned()),
            Err(error) if error.kind() == io::ErrorKind::NotFound => {
                self.failed(source, below, "a link to nothing".to_owned());
            }
            Err(error) => self.failed(source, below, format!("it cannot be read: {error}")),
        }
    }

    fn failed(&mut self, source: PathBuf, below: &Path, reason: String) {
        self.push(source, below, Some(reason));
    }

    fn push(&mut self, source: PathBuf, below: &Path, failed: Option<String>) {
        let target = self.arguments.to.join(below);
        let plane = self.arguments.plane.then(|| plane_name(&target));
        self.items.push(Item { source, target, plane, failed });
    }
}

/// The last part of a path, if it is a name.
fn last_name(path: &Path) -> Option<OsString> {
    path.file_name().map(OsString::from)
}

fn is_hidden(path: &Path) -> bool {
    path.file_name().is_some_and(|name| name.as_encoded_bytes().starts_with(b"."))
}

fn is_frame_name(path: &Path) -> bool {
    path.extension().is_some_and(|end| end.eq_ignore_ascii_case("ppm") || end.eq_ignore_ascii_case("pnm"))
}

/// The plane of NAME.ppm or NAME.pnm is NAME.pgm, and that of any other NAME is NAME.pgm too.
fn plane_name(target: &Path) -> PathBuf {
    if is_frame_name(target) {
        return target.with_extension("pgm");
    }
    let mut whole = target.as_os_str().to_owned();
    whole.push(".pgm");
    PathBuf::from(whole)
}

/// The path without links but in its last name, also where it is not there yet.
fn resolved(path: &Path) -> PathBuf {
    if let (Ok(path), true) = (fs::canonicalize(path), path.is_dir()) {
        return path;
    }
    let path = std::path::absolute(path).unwrap_or_else(|_| path.to_owned());
    match (path.parent(), path.file_name()) {
        (Some(folder), Some(name)) => resolved(folder).join(name),
        _ => path,
    }
}

fn identity(path: &Path) -> Option<Identity> {
    fs::metadata(path).ok().map(|metadata| (metadata.dev(), metadata.ino()))
}

/// The items without those that are given twice; two files with one target are an error.
fn distinct(items: Vec<Item>) -> Result<Vec<Item>, String> {
    let mut writers: HashMap<PathBuf, (PathBuf, Option<Identity>, usize)> = HashMap::new();
    let mut kept: Vec<Item> = Vec::new();
    for item in items {
        let from = identity(&item.source);
        let mut twice = false;
        for (role, target) in std::iter::once(&item.target).chain(&item.plane).enumerate() {
            match writers.get(&resolved(target)) {
                Some((_, other, other_role)) if from.is_some() && *other == from && role == *other_role => twice = true,
                Some((other, ..)) => {
                    let (one, two, target) = (name(other), name(&item.source), name(target));
                    return Err(format!(
                        "{one} and {two} would both be written to {target}: give them apart, to two folders"
                    ));
                }
                None => {
                    writers.insert(resolved(target), (item.source.clone(), from, role));
                }
            }
        }
        if !twice {
            kept.push(item);
        }
    }
    Ok(kept)
}

/// The inputs of these paths that are there.
pub fn inputs<'a>(paths: impl Iterator<Item = &'a PathBuf>) -> Inputs<'a> {
    paths.filter_map(|path| Some((identity(path)?, path))).collect()
}

/// A target that is there is no input by any path, and nothing but a file.
pub fn replaceable(target: &Path, inputs: &Inputs) -> Result<(), String> {
    let Ok(metadata) = fs::metadata(target) else { return Ok(()) };
    if let Some(input) = inputs.get(&(metadata.dev(), metadata.ino())) {
        return Err(format!("{} would be written over the input {}", name(target), name(input)));
    }
    if !metadata.is_file() {
        return Err(format!("{}: it is there and no file", name(target)));
    }
    Ok(())
}

/// No target, and not the report, is an input by any path, or anything but a file; the report is no target.
fn no_input(items: &[Item], arguments: &Enhance) -> Result<(), String> {
    let inputs = inputs(items.iter().map(|item| &item.source).chain(&arguments.list));
    let targets: Vec<&PathBuf> =
        items.iter().flat_map(|item| std::iter::once(&item.target).chain(&item.plane)).collect();
    for target in targets.iter().copied().chain(&arguments.report) {
        replaceable(target, &inputs)?;
    }
    if let Some(report) = &arguments.report {
        let report = resolved(report);
        if targets.iter().any(|target| resolved(target) == report) {
            return Err(format!("{}: the report would be written over a result", name(&report)));
        }
    }
    Ok(())
}

/// Makes the folders for the results, and makes sure that files can be made in them and beside the report.
fn make_folders(items: &[Item], arguments: &Enhance) -> Result<(), String> {
    let about = |path: &Path, error: io::Error| format!("{}: {error}", name(path));
    if let Some(report) = &arguments.report {
        save::writable(save::folder(report)).map_err(|error| about(report, error))?;
    }
    let targets = items.iter().filter(|item| item.failed.is_none()).map(|item| item.target.as_path());
    let folders: BTreeSet<&Path> = targets.map(save::folder).chain([arguments.to.as_path()]).collect();
    for folder in folders {
        fs::create_dir_all(folder).and_then(|()| save::writable(folder)).map_err(|error| about(folder, error))?;
    }
    Ok(())
}
