// SPDX-License-Identifier: MIT OR Apache-2.0
use crate::{follower_with_room, Catalog, Code, Error, Follower, Readers};
use std::{
    collections::BTreeSet,
    fmt, fs, io,
    ops::Deref,
    path::{Path, PathBuf},
    time::Duration,
};

/// What owns symbols and is no module that a listing of modules has.
const UNLISTED: [&[u8]; 3] = [b"bpf", b"__builtin__ftrace", b"__builtin__kprobes"];

/// The files that a [`FileFollower`] reads.
#[derive(Clone, Debug, PartialEq, Eq)]
pub struct Files {
    /// The file of symbols.
    pub kallsyms: PathBuf,
    /// The file of modules. None: modules come from the symbols.
    pub modules: Option<PathBuf>,
    /// A file in the form of /proc/modules that a poll reads first. None: each poll reads the others.
    pub watched: Option<PathBuf>,
    /// After so long a poll reads the listings, whatever the watched file says.
    pub every: Duration,
}

impl Default for Files {
    /// /proc/kallsyms, beside which /proc/modules is watched for a minute.
    fn default() -> Self {
        Files { watched: Some("/proc/modules".into()), ..Files::new("/proc/kallsyms") }
    }
}

impl Files {
    /// A file of symbols, which each poll reads.
    pub fn new(kallsyms: impl Into<PathBuf>) -> Self {
        let kallsyms = kallsyms.into();
        Files { kallsyms, modules: None, watched: None, every: Duration::from_secs(60) }
    }
}

/// Why a poll took no listing.
#[derive(Debug)]
#[non_exhaustive]
pub enum PollError {
    /// A file cannot be read.
    Unread(PathBuf, io::Error),
    /// Something is noted of a file that was not noted of the listing shown: the library's text.
    Noted(PathBuf, &'static str),
    /// The library refused the listing.
    Refused(Error),
}

impl From<Error> for PollError {
    fn from(error: Error) -> Self {
        PollError::Refused(error)
    }
}

impl fmt::Display for PollError {
    fn fmt(&self, out: &mut fmt::Formatter<'_>) -> fmt::Result {
        match self {
            PollError::Unread(path, error) => write!(out, "{}: {error}", path.display()),
            PollError::Noted(path, note) => write!(out, "{}: {note}", path.display()),
            PollError::Refused(error) => error.fmt(out),
        }
    }
}

impl std::error::Error for PollError {
    fn source(&self) -> Option<&(dyn std::error::Error + 'static)> {
        match self {
            PollError::Unread(_, error) => Some(error),
            PollError::Noted(..) => None,
            PollError::Refused(error) => Some(error),
        }
    }
}

/// What is noted of the file of symbols, and of that of modules.
type Notes = [Option<&'static str>; 2];

/// A [`Follower`] of files: [`poll`](FileFollower::poll) reads them again where they may have changed.
///
/// Its finds are those of a follower. Stamps are those of [`now`](FileFollower::now).
///
/// ```
/// # let path = std::env::temp_dir().join(format!("latchsym.{}", std::process::id()));
/// # let path = path.as_path();
/// std::fs::write(path, "ffffffffc0000010 t ext4_a\t[ext4]\n")?;
/// let (mut follower, mut readers) = latchsym::file_follower(latchsym::Files::new(path), 64, 1)?;
/// let sample = readers.get(0).unwrap().find(0xffffffffc0000018)?;
/// std::fs::write(path, "ffffffffc0000010 t xfs_a\t[xfs]\n")?;
/// assert!(follower.poll()? && !follower.poll()?);
/// let name = follower.find(sample.generation, 0xffffffffc0000018)?.unwrap().name;
/// assert_eq!(name, Some(&b"ext4_a"[..]));
/// # std::fs::remove_file(path)?;
/// # Ok::<(), Box<dyn std::error::Error>>(())
/// ```
#[derive(Debug)]
pub struct FileFollower {
    follower: Follower,
    files: Files,
    notes: Option<Notes>,
    /// The modules that own symbols of the listing shown.
    owners: BTreeSet<Vec<u8>>,
    /// What the watched file said before the last reading, if that took place.
    seen: Option<Vec<u8>>,
    is_settled: bool,
    read_at: u64,
}

/// Opens a table of 1 to 65536 nodes with 1 to 64 readers, which follows the files. What is noted of
/// the first listings is no error.
pub fn file_follower(
    files: Files,
    nodes: u32,
    readers: usize,
) -> Result<(FileFollower, Readers), PollError> {
    file_follower_with_room(files, nodes, readers, readers)
}

/// Opens one as [`file_follower`] does, with room for this many readers in all.
pub fn file_follower_with_room(
    files: Files,
    nodes: u32,
    count: usize,
    room: usize,
) -> Result<(FileFollower, Readers), PollError> {
    let (follower, readers) = follower_with_room(nodes, count, room)?;
    let (notes, owners, seen) = (None, BTreeSet::new(), None);
    let mut follower =
        FileFollower { follower, files, notes, owners, seen, is_settled: false, read_at: 0 };
    follower.poll()?;
    Ok((follower, readers))
}

impl FileFollower {
    /// Reads the files where they may have changed, and shows what has. Returns whether it has.
    ///
    /// It reads the watched file first. If that says of each module what it said at the last reading,
    /// nothing else is read, until [`Files::every`] has passed since: for BPF programs and
    /// trampolines, which stand in /proc/kallsyms alone, and for a module that was loaded anew with
    /// the same size at the same address. A listing that is refused changes nothing: the one shown
    /// stays, and the next poll reads again.
    pub fn poll(&mut self) -> Result<bool, PollError> {
        let (now, seen) = (FileFollower::now(), self.watch());
        let is_as_seen = seen.is_some() && seen == self.seen;
        let age = Duration::from_nanos(now - self.read_at);
        if is_as_seen && self.is_settled && age < self.files.every {
            return Ok(false);
        }
        self.seen = None;
        self.read_at = now;
        let read = |path: &Path| read_file(path).map_err(|it| PollError::Unread(path.into(), it));
        let kallsyms = read(&self.files.kallsyms)?;
        let modules = self.files.modules.as_deref().map(read).transpose()?;
        if self.follower.shows(&kallsyms, modules.as_deref()) {
            self.settle(seen, is_as_seen);
            return Ok(false);
        }
        let (files, notes) = (&self.files, self.notes);
        let look = |catalog: &Catalog<'_>| looked_at(catalog, files, notes);
        let now = FileFollower::now();
        let (_, (notes, owners)) = self.follower.show_if(kallsyms, modules, now, look)?;
        self.notes = Some(notes);
        self.owners = owners;
        self.settle(seen, false);
        Ok(true)
    }

    /// Nanoseconds of CLOCK_MONOTONIC, the stamps of the listings that are shown.
    pub fn now() -> u64 {
        #[repr(C)]
        struct Time {
            seconds: i64,
            nanoseconds: i64,
        }
        extern "C" {
            fn clock_gettime(clock: i32, out: *mut Time) -> i32;
        }
        const MONOTONIC: i32 = 1;
        let mut time = Time { seconds: 0, nanoseconds: 0 };
        // SAFETY: the call writes the time, which is laid out as that of 64-bit Linux.
        unsafe { clock_gettime(MONOTONIC, &mut time) };
        time.seconds as u64 * 1_000_000_000 + time.nanoseconds as u64
    }

    /// What is noted of the file of symbols that is shown.
    pub fn symbols_note(&self) -> Option<&'static str> {
        self.notes.and_then(|notes| notes[0])
    }

    /// The same of the file of modules.
    pub fn modules_note(&self) -> Option<&'static str> {
        self.notes.and_then(|notes| notes[1])
    }

    /// Forgets each listing that no sample of this generation or a later one needs.
    pub fn forget(&mut self, generation: u64) {
        self.follower.forget(generation);
    }

    /// Forgets each listing that no sample of this stamp or a later one needs.
    pub fn forget_since(&mut self, at: u64) {
        self.follower.forget_since(at);
    }

    /// One more reader, where the readers have room: [`file_follower_with_room`].
    pub fn add_reader(&mut self, readers: &mut Readers) -> Result<(), Error> {
        self.follower.add_reader(readers)
    }

    /// Notes code, as [`Follower::note`] does.
    pub fn note(&mut self, code: Code<'_>, since: u64) -> Result<u64, Error> {
        self.follower.note(code, since)
    }

    /// Notes that code is gone, as [`Follower::note_gone`] does.
    pub fn note_gone(&mut self, addr: u64, since: u64) -> Result<Option<u64>, Error> {
        self.follower.note_gone(addr, since)
    }

    /// Goes on with so many nodes, with all readers of its table: for files whose regions
    /// [`poll`](FileFollower::poll) refuses by [`Error::Full`].
    pub fn enlarge(&mut self, nodes: u32, readers: &mut Readers) -> Result<(), Error> {
        self.follower.enlarge(nodes, readers)
    }

    /// What the watched file says of each module: of none where it is missing. None where it cannot be
    /// read, or no file is watched.
    fn watch(&self) -> Option<Vec<u8>> {
        match read_file(self.files.watched.as_deref()?) {
            Ok(text) => Some(loads(&text)),
            Err(error) => (error.kind() == io::ErrorKind::NotFound).then(Vec::new),
        }
    }

    /// Lets polls be content with the watched file if it says what it said before the listings were
    /// read, and the modules that own symbols are those that it has.
    ///
    /// A module that comes or goes while they are read may stand in one of the two alone. Then the next
    /// poll reads again; if that reading is as this one, the module has no symbols.
    fn settle(&mut self, seen: Option<Vec<u8>>, is_again: bool) {
        self.is_settled = seen.is_some()
            && self.watch() == seen
            && (is_again || seen.as_deref().map_or(false, |it| listed(it) == self.owners));
        self.seen = seen;
    }
}

impl Deref for FileFollower {
    type Target = Follower;

    fn deref(&self) -> &Follower {
        &self.follower
    }
}

/// What is noted of a catalog that is to be shown, and the modules that own symbols of it. Refuses a
/// note that is new.
fn looked_at(
    catalog: &Catalog<'_>,
    files: &Files,
    before: Option<Notes>,
) -> Result<(Notes, BTreeSet<Vec<u8>>), PollError> {
    let notes = [catalog.counts().symbols_note(), catalog.counts().modules_note()];
    let paths = [Some(&files.kallsyms), files.modules.as_ref()];
    for place in 0..2 {
        if let (Some(note), Some(path), Some(old)) = (notes[place], paths[place], before) {
            if old[place] != Some(note) {
                return Err(PollError::Noted(path.clone(), note));
            }
        }
    }
    let is_owner =
        |it: &crate::Module<'_>| it.number != 0 && it.symbols != 0 && !UNLISTED.contains(&it.name);
    let owners = catalog.modules()?.filter(is_owner).map(|it| it.name.to_vec()).collect();
    Ok((notes, owners))
}

/// What a text in the form of /proc/modules says of each module, but for its users, the third and the
/// fourth word, which come and go while it stays loaded.
fn loads(modules: &[u8]) -> Vec<u8> {
    let mut out = Vec::with_capacity(modules.len());
    for line in modules.split(|byte| *byte == b'\n').filter(|line| !line.is_empty()) {
        for (place, word) in line.split(|byte| *byte == b' ').enumerate() {
            if place != 2 && place != 3 {
                out.extend_from_slice(word);
                out.push(b' ');
            }
        }
        out.push(b'\n');
    }
    out
}

/// The names of the modules of what [`loads`] gives.
fn listed(loads: &[u8]) -> BTreeSet<Vec<u8>> {
    let lines = loads.split(|byte| *byte == b'\n').filter(|line| !line.is_empty());
    lines.map(|line| line.split(|byte| *byte == b' ').next().unwrap_or(line).to_vec()).collect()
}

#[cfg(not(test))]
fn read_file(path: &Path) -> io::Result<Vec<u8>> {
    fs::read(path)
}

#[cfg(test)]
fn read_file(path: &Path) -> io::Result<Vec<u8>> {
    let text = fs::read(path);
    tests::has_read(path);
    text
}

#[cfg(test)]
mod tests {
    use super::*;
    use std::cell::RefCell;

    const START: u64 = 0xffff_ffff_c000_0000;
    const KERNEL: &str =
        "ffffffff81000000 T _stext\nffffffff81000100 T one\nffffffff81000200 T _end\n";

    type Change = Option<Box<dyn FnOnce()>>;
    thread_local! {
        /// How often a listing was read, and what is done once the next one is.
        static READS: RefCell<(usize, Change)> = const { RefCell::new((0, None)) };
    }

    pub(super) fn has_read(path: &Path) {
        if path.ends_with("kallsyms") {
            let change = READS.with(|it| {
                it.borrow_mut().0 += 1;
                it.borrow_mut().1.take()
            });
            change.into_iter().for_each(|change| change());
        }
    }

    fn meanwhile(change: impl FnOnce() + 'static) {
        READS.with(|it| it.borrow_mut().1 = Some(Box::new(change)));
    }

    /// A folder of two files, which is gone with it.
    #[derive(Clone)]
    struct Place(PathBuf);

    impl Place {
        fn new(name: &str) -> Self {
            let folder = format!("latchsym.{name}.{}", std::process::id());
            let place = Place(std::env::temp_dir().join(folder));
            fs::create_dir_all(&place.0).unwrap();
            place.load(&["first"]);
            place
        }

        fn files(&self) -> Files {
            let watched = Some(self.0.join("watched"));
            Files { watched, ..Files::new(self.0.join("kallsyms")) }
        }

        fn list_as(&self, names: &[&str], users: &str) {
            let line = |it: &&str| format!("{it} 4096 {users} Live {START:#x}\n");
            fs::write(self.0.join("watched"), names.iter().map(line).collect::<String>()).unwrap();
        }

        fn list(&self, names: &[&str]) {
            self.list_as(names, "0 -");
        }

        fn show(&self, names: &[&str]) {
            let line = |(page, it): (usize, &&str)| {
                format!("{:x} t {it}\t[{it}]\n", START + 4096 * page as u64)
            };
            let text = names.iter().enumerate().map(line).collect::<String>();
            fs::write(self.0.join("kallsyms"), KERNEL.to_owned() + &text).unwrap();
        }

        fn load(&self, names: &[&str]) {
            self.list(names);
            self.show(names);
        }
    }

    struct Followed(FileFollower, Readers);

    impl Followed {
        fn new(files: Files) -> Self {
            let (follower, readers) = file_follower(files, 64, 1).unwrap();
            Followed(follower, readers)
        }

        /// How many of ten polls read the listing.
        fn reads(&mut self) -> usize {
            let before = READS.with(|it| it.borrow().0);
            (0..10).for_each(|_| drop(self.0.poll()));
            READS.with(|it| it.borrow().0) - before
        }

        fn names(&mut self) -> Vec<String> {
            let mut reader = self.1.get(0).unwrap();
            let mut names = Vec::new();
            for page in 0..3 {
                let addr = START + 4096 * page;
                let generation = reader.find(addr).unwrap().generation;
                if let Some(symbol) = self.0.find(generation, addr).unwrap() {
                    names.push(String::from_utf8_lossy(symbol.name.unwrap()).into_owned());
                }
            }
            names
        }
    }

    #[test]
    fn nothing_is_read_while_modules_stay() {
        let place = Place::new("stay");
        let mut followed = Followed::new(place.files());
        place.show(&["first", "bpf"]);
        assert_eq!((followed.reads(), followed.names()), (0, vec!["first".into()]));
        place.list_as(&["first"], "3 second,third,");
        assert_eq!(followed.reads(), 0);
        place.load(&["first", "second"]);
        assert!(followed.0.poll().unwrap());
        assert_eq!((followed.reads(), followed.names().len()), (0, 2));
        fs::write(
            place.0.join("watched"),
            "first 4096 0 - Live 0x9000\nsecond 4096 0 - Live 0x1\n",
        )
        .unwrap();
        assert_eq!(followed.reads(), 1);
        let mut each = Followed::new(Files { every: Duration::from_secs(0), ..place.files() });
        assert_eq!(each.reads(), 10);
        assert_eq!(Followed::new(Files { watched: None, ..place.files() }).reads(), 10);
        fs::remove_file(place.0.join("watched")).unwrap();
        place.show(&[]);
        assert_eq!(Followed::new(place.files()).reads(), 0);
        fs::create_dir(place.0.join("watched")).unwrap();
        assert_eq!(Followed::new(place.files()).reads(), 10);
        let kernel = Files::default();
        assert_eq!(kernel.watched, Some("/proc/modules".into()));
        assert_eq!(kernel.kallsyms, PathBuf::from("/proc/kallsyms"));
        fs::remove_dir_all(place.0).unwrap();
    }

    #[test]
    fn modules_that_come_and_go_while_the_listing_is_read() {
        let place = Place::new("beside");
        let then = place.clone();
        meanwhile(move || then.load(&["first", "second"]));
        let mut came = Followed::new(place.files());
        assert_eq!(came.names().len(), 1);
        assert!(came.0.poll().unwrap());
        assert_eq!((came.reads(), came.names().len()), (0, 2));
        // there only while it was read
        place.list(&["first"]);
        let then = place.clone();
        meanwhile(move || then.show(&["first"]));
        let mut gone = Followed::new(place.files());
        assert_eq!(gone.names().len(), 2);
        assert!(gone.0.poll().unwrap());
        assert_eq!((gone.reads(), gone.names().len()), (0, 1));
        // gone only while it was read
        place.list(&["first", "second"]);
        let then = place.clone();
        meanwhile(move || then.show(&["first", "second"]));
        let mut anew = Followed::new(place.files());
        assert!(anew.0.poll().unwrap());
        assert_eq!((anew.reads(), anew.names().len()), (0, 2));
        // elsewhere only while it was read
        place.load(&["first"]);
        let text = fs::read_to_string(place.0.join("kallsyms")).unwrap();
        fs::write(place.0.join("kallsyms"), text.replace("c0000000", "c0001000")).unwrap();
        let then = place.clone();
        meanwhile(move || fs::write(then.0.join("watched"), "first 4096 0 - Live 0x1\n").unwrap());
        assert!(anew.0.poll().unwrap());
        place.load(&["first"]);
        assert!(anew.0.poll().unwrap());
        place.load(&["first", "second"]);
        assert!(anew.0.poll().unwrap());
        // one without symbols, and symbols that no module owns
        place.list(&["first", "second", "silent"]);
        assert_eq!(anew.reads(), 2);
        place.load(&["first"]);
        place.show(&["first", "bpf", "__builtin__ftrace"]);
        assert!(anew.0.poll().unwrap());
        assert_eq!(anew.reads(), 0);
        fs::remove_dir_all(place.0).unwrap();
    }

    #[test]
    fn a_listing_that_is_refused_changes_nothing() {
        let place = Place::new("refused");
        let kallsyms = place.0.join("kallsyms");
        let mut followed = Followed::new(place.files());
        let (first, early) = (followed.names(), FileFollower::now());
        place.list(&["first", "second"]);
        fs::write(&kallsyms, "0000000000000000 T _stext\n").unwrap();
        for _ in 0..2 {
            let said = followed.0.poll().unwrap_err();
            assert!(matches!(&said, PollError::Noted(path, _) if *path == kallsyms));
            assert!(said.to_string().starts_with(&format!("{}: every", kallsyms.display())));
            assert_eq!(followed.names(), first);
        }
        fs::remove_file(&kallsyms).unwrap();
        let said = followed.0.poll().unwrap_err();
        assert!(matches!(&said, PollError::Unread(path, _) if *path == kallsyms), "{said}");
        place.show(&["first", "second"]);
        assert!(followed.0.poll().unwrap());
        assert_eq!((followed.reads(), followed.names().len()), (0, 2));
        assert_eq!(followed.0.find_since(early, START).unwrap().unwrap().name, Some(&b"first"[..]));
        followed.0.forget(2);
        assert_eq!(followed.0.find_since(early, START).unwrap_err(), Error::Forgotten);
        // and where the watched file has said nothing of it
        followed.0.files.every = Duration::from_secs(0);
        fs::remove_file(&kallsyms).unwrap();
        assert!(followed.0.poll().is_err());
        followed.0.files.every = Duration::from_secs(60);
        place.show(&["first", "second", "bpf"]);
        assert!(followed.0.poll().unwrap());
        let small = Files { modules: Some(place.0.join("watched")), ..place.files() };
        let said = file_follower(small.clone(), 1, 1).unwrap_err();
        assert!(matches!(said, PollError::Refused(Error::Full)));
        let line = format!("first 4096 0 - Live {:#018x}\n", 0);
        fs::write(place.0.join("watched"), line).unwrap();
        let hidden = file_follower(small, 4, 1).unwrap().0;
        assert_eq!(hidden.symbols_note(), None);
        assert!(hidden.modules_note().unwrap().starts_with("every address is 0"));
        fs::remove_dir_all(place.0).unwrap();
    }
}
