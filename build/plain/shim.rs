//! What the code of this repository takes of Rattle's library, in plain Rust, so that its speed without proofs can be measured.
#![allow(dead_code, unused)]

mod caches;
pub mod clap;

pub use caches::{indexmap, lru, rand_core, rand_pcg};

pub mod prelude {
    pub use crate::alloc::AllocGlobal;
    pub use crate::boxed::Box;
    pub use crate::convert::AsStr;
    pub use crate::iter::Collect;
    pub use crate::marker::Drop;
    pub use crate::string::String;
    pub use crate::vec::{ToVec, Vec};
}

pub mod alloc {
    #[derive(Clone, Copy, Debug)]
    pub struct Global;

    pub trait AllocGlobal {
        fn alloc(&self) -> Global {
            Global
        }
    }

    #[derive(Clone, Copy, Debug, PartialEq, Eq)]
    pub struct AllocError;

    #[derive(Clone, Copy, Debug)]
    pub struct AllocFailed<T> {
        pub value: T,
    }

    impl From<AllocError> for std::io::Error {
        fn from(_: AllocError) -> std::io::Error {
            std::io::Error::from(std::io::ErrorKind::OutOfMemory)
        }
    }

    impl<T> From<AllocFailed<T>> for AllocError {
        fn from(_: AllocFailed<T>) -> AllocError {
            AllocError
        }
    }
}

pub mod marker {
    pub use std::marker::PhantomData;

    pub trait Model {}

    pub trait Drop {}

    impl<T: ?Sized> Drop for T {}

    #[derive(Clone, Copy)]
    pub struct Brand;
}

pub mod mem {
    pub use std::mem::*;
}

pub mod fmt {
    pub use std::fmt::*;
}

pub mod cmp {
    pub use std::cmp::*;
}

pub mod collections {
    use crate::alloc::{AllocError, Global};
    use std::hash::Hash;

    /// A collection of the standard library whose room may be refused.
    macro_rules! collection {
        ($name:ident<$($of:ident),+>) => {
            pub struct $name<$($of),+>(std::collections::$name<$($of),+>);

            impl<$($of),+> $name<$($of),+> {
                pub fn new(_: Global) -> Self {
                    $name(std::collections::$name::new())
                }
            }

            impl<$($of),+> std::ops::Deref for $name<$($of),+> {
                type Target = std::collections::$name<$($of),+>;

                fn deref(&self) -> &Self::Target {
                    &self.0
                }
            }

            impl<$($of),+> std::ops::DerefMut for $name<$($of),+> {
                fn deref_mut(&mut self) -> &mut Self::Target {
                    &mut self.0
                }
            }
        };
    }

    macro_rules! map {
        ($name:ident, $first:path $(, $more:path)*) => {
            collection!($name<K, V>);

            impl<K: $first $(+ $more)*, V> $name<K, V> {
                pub fn insert(&mut self, key: K, value: V) -> Result<Option<V>, AllocError> {
                    Ok(self.0.insert(key, value))
                }
            }
        };
    }

    macro_rules! set {
        ($name:ident, $first:path $(, $more:path)*) => {
            collection!($name<T>);

            impl<T: $first $(+ $more)*> $name<T> {
                pub fn insert(&mut self, value: T) -> Result<bool, AllocError> {
                    Ok(self.0.insert(value))
                }
            }
        };
    }

    map!(HashMap, Hash, Eq);
    map!(BTreeMap, Ord);
    set!(HashSet, Hash, Eq);
    set!(BTreeSet, Ord);

    impl<K: Hash + Eq, V> HashMap<K, V> {
        pub fn with_capacity(_: Global, capacity: usize) -> Result<Self, AllocError> {
            let mut made = std::collections::HashMap::new();
            made.try_reserve(capacity).map_err(|_| AllocError)?;
            Ok(HashMap(made))
        }
    }
}

pub mod snapshot {
    use std::marker::PhantomData;

    pub struct Snapshot<T>(PhantomData<fn() -> T>);

    impl<T> Snapshot<T> {
        #[inline(always)]
        pub fn of(_: &T) -> Self {
            Snapshot(PhantomData)
        }
    }
}

pub mod time {
    pub use std::time::Duration;
}

pub mod str {
    pub use std::str::*;
}

pub mod num {
    pub use std::num::*;
}

pub mod process {
    pub use std::process::*;

    pub trait Abort {}
}

pub mod convert {
    pub use std::convert::*;

    pub trait AsStr {
        fn as_str(&self) -> &str;
    }

    impl AsStr for &str {
        fn as_str(&self) -> &str {
            self
        }
    }

    impl AsStr for crate::string::String {
        fn as_str(&self) -> &str {
            &self.0
        }
    }
}

pub mod string {
    use crate::alloc::{AllocError, Global};
    use crate::vec::Vec;

    #[derive(Clone, Debug, PartialEq, Eq, PartialOrd, Ord, Hash)]
    pub struct String(pub std::string::String);

    impl String {
        pub fn new(_: Global) -> Self {
            String(std::string::String::new())
        }

        pub fn from_utf8(bytes: Vec<u8>) -> Result<Self, std::string::FromUtf8Error> {
            std::string::String::from_utf8(bytes.0).map(String)
        }

        pub fn as_str(&self) -> &str {
            &self.0
        }

        pub fn push(&mut self, letter: char) -> Result<(), AllocError> {
            self.0.try_reserve(letter.len_utf8()).map_err(|_| AllocError)?;
            self.0.push(letter);
            Ok(())
        }
    }

    impl std::fmt::Write for String {
        fn write_str(&mut self, text: &str) -> std::fmt::Result {
            self.0.push_str(text);
            Ok(())
        }
    }

    impl std::ops::Deref for String {
        type Target = str;

        fn deref(&self) -> &str {
            &self.0
        }
    }

    impl std::fmt::Display for String {
        fn fmt(&self, f: &mut std::fmt::Formatter<'_>) -> std::fmt::Result {
            self.0.fmt(f)
        }
    }
}

#[macro_export]
macro_rules! format_in {
    ($alloc:expr; $($text:tt)*) => {
        Ok::<_, $crate::alloc::AllocError>($crate::string::String(std::format!($($text)*)))
    };
}

pub mod iter {
    pub use std::iter::*;
    use crate::alloc::{AllocError, Global};
    use crate::vec::Vec;

    /// `collect` with an allocator.
    pub trait Collect: Iterator + Sized {
        fn collect_in<C: From<Vec<Self::Item>>>(self, _: Global) -> Result<C, AllocError> {
            Ok(Vec(Iterator::collect::<std::vec::Vec<Self::Item>>(self)).into())
        }
    }

    impl<I: Iterator> Collect for I {}
}

pub mod env {
    use crate::string::String;

    pub trait Env {}

    /// The words of the command line, which have to be text.
    pub fn args<R: Env>(_: &R) -> std::io::Result<std::vec::IntoIter<String>> {
        let words: Option<Vec<_>> = std::env::args_os().map(|word| word.into_string().ok().map(String)).collect();
        let wrong = || std::io::Error::from(std::io::ErrorKind::InvalidData);
        words.map(Vec::into_iter).ok_or_else(wrong)
    }
}

pub mod rt {
    /// Who may open files.
    pub trait Files {
        type File: std::io::Read + std::io::Write + std::io::Seek + crate::fs::OpenFile;
    }
}

pub mod os {
    pub mod unix {
        pub mod fs {
            #[cfg(unix)]
            pub use std::os::unix::fs::FileTypeExt;

            /// Other systems have no such files.
            #[cfg(not(unix))]
            pub trait FileTypeExt {
                fn is_fifo(&self) -> bool {
                    false
                }
            }

            #[cfg(not(unix))]
            impl FileTypeExt for std::fs::FileType {}
        }
    }
}

pub mod fs {
    use crate::rt::Files;
    pub use std::fs::{File as SystemFile, Metadata};
    use std::io::Result;

    pub trait OpenFile: Sized {
        fn opened(file: SystemFile) -> Self;

        fn metadata(&self) -> Result<Metadata>;
    }

    impl OpenFile for SystemFile {
        fn opened(file: SystemFile) -> Self {
            file
        }

        fn metadata(&self) -> Result<Metadata> {
            SystemFile::metadata(self)
        }
    }

    pub fn open<R: Files>(_: &R, name: &str) -> Result<R::File> {
        SystemFile::open(name).map(R::File::opened)
    }

    pub fn symlink_metadata<R: Files>(_: &R, name: &str) -> Result<Metadata> {
        std::fs::symlink_metadata(name)
    }

    pub fn metadata<R: Files>(_: &R, name: &str) -> Result<Metadata> {
        std::fs::metadata(name)
    }

    /// A path that is text.
    pub struct PathBuf(String);

    impl PathBuf {
        pub fn into_string(self) -> crate::string::String {
            crate::string::String(self.0)
        }
    }

    /// A page has files without links.
    #[cfg(target_family = "wasm")]
    pub fn canonicalize<R: Files>(_: &R, name: &str) -> Result<PathBuf> {
        Ok(PathBuf(name.to_string()))
    }

    #[cfg(not(target_family = "wasm"))]
    pub fn canonicalize<R: Files>(_: &R, name: &str) -> Result<PathBuf> {
        let path = std::fs::canonicalize(name)?;
        match path.into_os_string().into_string() {
            Ok(path) => Ok(PathBuf(path)),
            Err(_) => Err(std::io::ErrorKind::InvalidData.into()),
        }
    }

    pub fn rename<R: Files>(_: &R, from: &str, to: &str) -> Result<()> {
        std::fs::rename(from, to)
    }

    pub fn remove_file<R: Files>(_: &R, name: &str) -> Result<()> {
        std::fs::remove_file(name)
    }

    pub fn write<R: Files>(_: &R, name: &str, bytes: &[u8]) -> Result<()> {
        std::fs::write(name, bytes)
    }

    pub struct File;

    impl File {
        pub fn create_new<R: Files>(_: &R, name: &str) -> Result<R::File> {
            SystemFile::create_new(name).map(R::File::opened)
        }
    }

    pub struct OpenOptions(std::fs::OpenOptions);

    impl OpenOptions {
        pub fn new() -> Self {
            OpenOptions(std::fs::OpenOptions::new())
        }

        pub fn read(mut self, is_so: bool) -> Self {
            self.0.read(is_so);
            self
        }

        pub fn write(mut self, is_so: bool) -> Self {
            self.0.write(is_so);
            self
        }

        pub fn create(mut self, is_so: bool) -> Self {
            self.0.create(is_so);
            self
        }

        pub fn truncate(mut self, is_so: bool) -> Self {
            self.0.truncate(is_so);
            self
        }

        pub fn open<R: Files>(&self, _: &R, name: &str) -> Result<R::File> {
            self.0.open(name).map(R::File::opened)
        }
    }
}

/// The system, as a program's `main` is given it.
pub mod host {
    use crate::sync::Host;

    /// What a program begins with: every run says what it is, unless who called it has.
    pub fn begin() -> Host {
        if std::env::var_os("PAGED_UNPROVED").is_none_or(|it| it != "told") {
            eprintln!("unproved: what this prints was made of the sources without their proofs");
        }
        Host
    }

    /// One of the three streams as the system has it: Rust's own take a closed one for one that takes all.
    pub fn stream(number: i32) -> &'static std::fs::File {
        use std::os::fd::FromRawFd;
        Box::leak(Box::new(unsafe { std::fs::File::from_raw_fd(number) }))
    }

    impl Host {
        pub fn stdin(&self) -> &'static std::fs::File {
            stream(0)
        }

        pub fn stderr(&self) -> &'static std::fs::File {
            stream(2)
        }
    }

    impl crate::alloc::AllocGlobal for Host {}

    impl crate::env::Env for Host {}

    impl crate::io::Print for Host {}

    impl crate::rt::Files for Host {
        type File = std::fs::File;
    }
}

pub mod io {
    use crate::alloc::{AllocError, Global};
    pub use std::io::*;
    use std::marker::PhantomData;

    /// A reader whose room may be refused.
    pub struct BufReader<R>(std::io::BufReader<R>);

    impl<R: Read> BufReader<R> {
        pub fn new(_: Global, inner: R) -> core::result::Result<Self, AllocError> {
            Ok(BufReader(std::io::BufReader::new(inner)))
        }

        pub fn with_capacity(_: Global, capacity: usize, inner: R) -> core::result::Result<Self, AllocError> {
            Ok(BufReader(std::io::BufReader::with_capacity(capacity, inner)))
        }
    }

    impl<R: Read> Read for BufReader<R> {
        fn read(&mut self, bytes: &mut [u8]) -> Result<usize> {
            self.0.read(bytes)
        }
    }

    impl<R: Read> BufRead for BufReader<R> {
        fn fill_buf(&mut self) -> Result<&[u8]> {
            self.0.fill_buf()
        }

        fn consume(&mut self, count: usize) {
            self.0.consume(count)
        }
    }

    /// A writer whose room may be refused.
    pub struct BufWriter<W: Write>(std::io::BufWriter<W>);

    impl<W: Write> BufWriter<W> {
        pub fn new(_: Global, inner: W) -> core::result::Result<Self, AllocError> {
            Ok(BufWriter(std::io::BufWriter::new(inner)))
        }
    }

    impl<W: Write> Write for BufWriter<W> {
        fn write(&mut self, bytes: &[u8]) -> Result<usize> {
            self.0.write(bytes)
        }

        fn flush(&mut self) -> Result<()> {
            self.0.flush()
        }
    }

    pub trait Print {}

    pub struct Printer<'r, R>(&'static std::fs::File, PhantomData<&'r R>);

    /// Standard output, which hands on at once what it is given.
    pub fn writer<R: Print>(_: &R) -> Printer<'_, R> {
        Printer(crate::host::stream(1), PhantomData)
    }

    impl<R> Write for Printer<'_, R> {
        fn write(&mut self, bytes: &[u8]) -> Result<usize> {
            self.0.write(bytes)
        }

        fn flush(&mut self) -> Result<()> {
            Ok(())
        }
    }
}

pub mod thread {
    pub trait Threads {}

    pub trait Promise<T> {}

    pub struct ScopeEnv;

    pub fn scope_env() -> ScopeEnv {
        ScopeEnv
    }

    pub struct Scope<'s, 'e: 's>(&'s std::thread::Scope<'s, 'e>);

    impl<'s, 'e> Scope<'s, 'e> {
        /// Refused where the system starts no thread.
        #[cfg(not(target_family = "wasm"))]
        pub fn spawn_with<P, T: Send + 's, F: FnOnce() -> T + Send + 's>(
            &self,
            _: P,
            f: F,
        ) -> Result<(), ()> {
            let started = std::thread::Builder::new().spawn_scoped(self.0, f);
            started.map(drop).map_err(drop)
        }

        /// WebAssembly has no threads, and its C library not even their names.
        #[cfg(target_family = "wasm")]
        pub fn spawn_with<P, T: Send + 's, F: FnOnce() -> T + Send + 's>(
            &self,
            _: P,
            _: F,
        ) -> Result<(), ()> {
            Err(())
        }
    }

    pub fn scope<'e, R, T, F: for<'s> FnOnce(Scope<'s, 'e>) -> T>(_: ScopeEnv, _: &R, f: F) -> T {
        std::thread::scope(|s| f(Scope(s)))
    }
}

pub mod sync {
    use crate::alloc::{AllocError, AllocFailed, Global};
    use std::ops::Deref;
    pub trait Wait {
        #[inline(always)]
        fn forever(&self) -> std::iter::Repeat<()> {
            std::iter::repeat(())
        }
    }

    pub struct Host;

    impl Wait for Host {}

    impl crate::thread::Threads for Host {}

    /// Where threads sleep that wait for words. Words with the same place here share a bell.
    struct Bed {
        lock: std::sync::Mutex<()>,
        bell: std::sync::Condvar,
    }

    const BEDS: usize = 61;

    static ALL: [Bed; BEDS] = [const { Bed { lock: std::sync::Mutex::new(()), bell: std::sync::Condvar::new() } }; BEDS];

    fn bed_of(word: &std::sync::atomic::AtomicU64) -> &'static Bed {
        &ALL[word.as_ptr().addr() / 8 % BEDS]
    }

    /// Sleeps while the low half of a word is what was seen, or until a bell rings, which may be another word's.
    fn sleep(word: &std::sync::atomic::AtomicU64, seen: u32, time: Option<std::time::Duration>) {
        let bed = bed_of(word);
        let held = bed.lock.lock().unwrap();
        if word.load(std::sync::atomic::Ordering::SeqCst) as u32 != seen {
            return;
        }
        match time {
            Some(time) => drop(bed.bell.wait_timeout(held, time)),
            None => drop(bed.bell.wait(held)),
        }
    }

    /// Rings for a word that was changed: one that looked at it before the change sleeps by now.
    fn wake(word: &std::sync::atomic::AtomicU64) {
        let bed = bed_of(word);
        drop(bed.lock.lock());
        bed.bell.notify_all();
    }

    /// A lock whose word is 1 where any thread may take it, 4 where only one that has slept may, 0 while it is held, 2 where a thread may
    /// sleep besides, and 3 where one asks for 4: so that a thread which takes it again and again starves nobody.
    pub struct Mutex<T> {
        free: std::sync::atomic::AtomicU64,
        value: std::cell::UnsafeCell<T>,
    }

    unsafe impl<T: Send> Send for Mutex<T> {}

    unsafe impl<T: Send> Sync for Mutex<T> {}

    pub struct MutexGuard<'a, T>(&'a Mutex<T>);

    impl<T> Mutex<T> {
        pub fn new(value: T) -> Self {
            Mutex {
                free: std::sync::atomic::AtomicU64::new(1),
                value: std::cell::UnsafeCell::new(value),
            }
        }

        fn change(&self, current: u64, new: u64) -> Result<u64, u64> {
            use std::sync::atomic::Ordering::SeqCst;
            self.free.compare_exchange(current, new, SeqCst, SeqCst)
        }

        fn take(&self, current: u64, new: u64) -> Option<MutexGuard<'_, T>> {
            self.change(current, new).ok().map(|_| MutexGuard(self))
        }

        fn seen(&self) -> u64 {
            self.free.load(std::sync::atomic::Ordering::SeqCst)
        }

        pub fn lock<R>(&self, _: &R) -> MutexGuard<'_, T> {
            let mut slept = 0;
            loop {
                if let Some(guard) = self.take(1, if slept == 0 { 0 } else { 2 }) {
                    return guard;
                }
                let seen = self.seen();
                if seen == 4 && slept != 0 {
                    if let Some(guard) = self.take(4, 2) {
                        return guard;
                    }
                    continue;
                }
                let wanted = if slept < 2 { 2 } else { 3 };
                if seen == 1 || seen < wanted && self.change(seen, wanted).is_err() {
                    continue;
                }
                sleep(&self.free, seen.max(wanted) as u32, None);
                slept += 1;
            }
        }

        pub fn try_lock(&self) -> Option<MutexGuard<'_, T>> {
            self.take(1, 0)
        }

        pub fn into_inner(self) -> T {
            self.value.into_inner()
        }
    }

    impl<T> Drop for MutexGuard<'_, T> {
        fn drop(&mut self) {
            let lock = self.0;
            if lock.change(0, 1).is_err() {
                if lock.change(2, 1).is_err() {
                    lock.free.store(4, std::sync::atomic::Ordering::SeqCst);
                }
                wake(&lock.free);
            }
        }
    }

    impl<T> Deref for MutexGuard<'_, T> {
        type Target = T;

        fn deref(&self) -> &T {
            unsafe { &*self.0.value.get() }
        }
    }

    impl<T> std::ops::DerefMut for MutexGuard<'_, T> {
        fn deref_mut(&mut self) -> &mut T {
            unsafe { &mut *self.0.value.get() }
        }
    }

    pub mod atomic {
        pub use std::sync::atomic::Ordering;
        use std::sync::atomic::AtomicU64 as Word;

        pub struct AtomicU64(pub Word);

        impl AtomicU64 {
            pub fn new(value: u64) -> Self {
                AtomicU64(Word::new(value))
            }

            pub fn load(&self, order: Ordering) -> u64 {
                self.0.load(order)
            }

            pub fn store(&self, value: u64, order: Ordering) {
                self.0.store(value, order)
            }

            pub fn fetch_add(&self, value: u64, order: Ordering) -> u64 {
                self.0.fetch_add(value, order)
            }

            pub fn fetch_sub(&self, value: u64, order: Ordering) -> u64 {
                self.0.fetch_sub(value, order)
            }

            pub fn swap(&self, value: u64, order: Ordering) -> u64 {
                self.0.swap(value, order)
            }

            pub fn compare_exchange(
                &self,
                current: u64,
                new: u64,
                order: Ordering,
                missed: Ordering,
            ) -> Result<u64, u64> {
                self.0.compare_exchange(current, new, order, missed)
            }

            pub fn into_inner(self) -> u64 {
                self.0.into_inner()
            }

            pub fn wake_all(&self) {
                super::wake(&self.0);
            }

            pub fn park_timeout<R>(&self, _: &R, seen: u32, time: std::time::Duration) {
                super::sleep(&self.0, seen, Some(time));
            }
        }
    }

    pub struct Arc<T>(std::sync::Arc<T>);

    impl<T> Arc<T> {
        pub fn new(_: Global, value: T) -> Result<Self, AllocFailed<T>> {
            Ok(Arc(std::sync::Arc::new(value)))
        }

        pub fn try_clone(this: &Self) -> Result<Self, AllocError> {
            Ok(Arc(this.0.clone()))
        }
    }

    impl<T> Deref for Arc<T> {
        type Target = T;

        #[inline(always)]
        fn deref(&self) -> &T {
            &self.0
        }
    }

    pub mod ledger {
        use crate::marker::Brand;
        use std::marker::PhantomData;

        pub trait Ledger {}

        impl Ledger for Brand {}

        pub struct Book<L>(PhantomData<L>);

        pub struct Share<L>(PhantomData<L>);

        pub struct Total<L>(PhantomData<L>);

        pub struct Blank;

        impl Blank {
            pub fn new(_: u64) -> Blank {
                Blank
            }

            pub fn open<L: Ledger>(self) -> (Book<L>, Share<L>) {
                (Book(PhantomData), Share(PhantomData))
            }
        }

        impl<L> Book<L> {
            pub fn add(&mut self, _: &mut Share<L>, _: u64) {}

            pub fn close(self) -> Total<L> {
                Total(PhantomData)
            }
        }

        impl<L> Total<L> {
            pub fn audit(&self, _: &mut Share<L>) {}
        }

        impl<L> Share<L> {
            pub fn empty(&self) -> Share<L> {
                Share(PhantomData)
            }

            pub fn merge(&mut self, _: Share<L>) {}

            pub fn split_off(&mut self, _: u64, _: u64) -> Share<L> {
                Share(PhantomData)
            }
        }
    }
}

pub mod vec {
    use crate::alloc::{AllocError, Global};
    use std::ops::{Deref, DerefMut, Index, IndexMut};

    /// A vector whose indices are not tested: that they are in range is proved.
    #[derive(Clone, Debug, PartialEq, Eq, Hash)]
    pub struct Vec<T>(pub std::vec::Vec<T>);

    impl<T> std::borrow::Borrow<[T]> for Vec<T> {
        fn borrow(&self) -> &[T] {
            &self.0
        }
    }

    impl<T> Vec<T> {
        pub fn new(_: Global) -> Self {
            Vec(std::vec::Vec::new())
        }

        pub fn with_capacity(_: Global, capacity: usize) -> Result<Self, AllocError> {
            let mut made = std::vec::Vec::new();
            made.try_reserve_exact(capacity).map_err(refused)?;
            Ok(Vec(made))
        }

        #[inline(always)]
        pub fn reserve(&mut self, more: usize) -> Result<(), AllocError> {
            self.0.try_reserve(more).map_err(refused)
        }

        pub fn push_reserved(&mut self, value: T) {
            self.0.push(value);
        }

        #[inline(always)]
        pub fn push(&mut self, value: T) -> Result<(), AllocError> {
            self.reserve(1)?;
            self.0.push(value);
            Ok(())
        }

        pub fn as_slice(&self) -> &[T] {
            &self.0
        }

        pub fn as_mut_slice(&mut self) -> &mut [T] {
            &mut self.0
        }

        pub fn retain_mut<F: FnMut(&mut T) -> bool>(&mut self, keep: F) {
            self.0.retain_mut(keep);
        }
    }

    pub trait ToVec<T> {
        fn to_vec_in(&self, _: Global) -> Result<Vec<T>, AllocError>;
    }

    impl<T: Clone> ToVec<T> for [T] {
        fn to_vec_in(&self, alloc: Global) -> Result<Vec<T>, AllocError> {
            Vec::from_slice(alloc, self)
        }
    }

    impl<T: Clone> Vec<T> {
        pub fn clone(&self) -> Result<Self, AllocError> {
            Vec::from_slice(Global, self)
        }

        pub fn from_slice(alloc: Global, slice: &[T]) -> Result<Self, AllocError> {
            let mut made = Vec::with_capacity(alloc, slice.len())?;
            made.0.extend_from_slice(slice);
            Ok(made)
        }

        /// Where there is room, the standard library's own, which asks the system for zeros.
        pub fn from_elem(alloc: Global, value: T, count: usize) -> Result<Self, AllocError> {
            drop(Vec::<T>::with_capacity(alloc, count)?);
            Ok(Vec(vec![value; count]))
        }

        pub fn resize(&mut self, length: usize, value: T) -> Result<(), AllocError> {
            self.reserve(length.saturating_sub(self.0.len()))?;
            self.0.resize(length, value);
            Ok(())
        }

        pub fn extend_from_slice(&mut self, slice: &[T]) -> Result<(), AllocError> {
            self.reserve(slice.len())?;
            self.0.extend_from_slice(slice);
            Ok(())
        }
    }

    fn refused(_: std::collections::TryReserveError) -> AllocError {
        AllocError
    }

    impl std::io::Write for Vec<u8> {
        fn write(&mut self, bytes: &[u8]) -> std::io::Result<usize> {
            self.extend_from_slice(bytes)?;
            Ok(bytes.len())
        }

        fn flush(&mut self) -> std::io::Result<()> {
            Ok(())
        }
    }

    impl<T> Deref for Vec<T> {
        type Target = std::vec::Vec<T>;

        #[inline(always)]
        fn deref(&self) -> &Self::Target {
            &self.0
        }
    }

    impl<T> DerefMut for Vec<T> {
        #[inline(always)]
        fn deref_mut(&mut self) -> &mut Self::Target {
            &mut self.0
        }
    }

    impl<T> Index<usize> for Vec<T> {
        type Output = T;

        #[inline(always)]
        fn index(&self, at: usize) -> &T {
            unsafe { self.0.get_unchecked(at) }
        }
    }

    impl<T> IndexMut<usize> for Vec<T> {
        #[inline(always)]
        fn index_mut(&mut self, at: usize) -> &mut T {
            unsafe { self.0.get_unchecked_mut(at) }
        }
    }

    macro_rules! index_range {
        ($($range:ty),*) => { $(
            impl<T> Index<$range> for Vec<T> {
                type Output = [T];

                fn index(&self, at: $range) -> &[T] {
                    &self.0[at]
                }
            }

            impl<T> IndexMut<$range> for Vec<T> {
                fn index_mut(&mut self, at: $range) -> &mut [T] {
                    &mut self.0[at]
                }
            }
        )* };
    }

    index_range!(std::ops::Range<usize>, std::ops::RangeFrom<usize>, std::ops::RangeTo<usize>);

    impl<T> IntoIterator for Vec<T> {
        type Item = T;
        type IntoIter = std::vec::IntoIter<T>;

        fn into_iter(self) -> Self::IntoIter {
            self.0.into_iter()
        }
    }

    impl<'a, T> IntoIterator for &'a Vec<T> {
        type Item = &'a T;
        type IntoIter = std::slice::Iter<'a, T>;

        fn into_iter(self) -> Self::IntoIter {
            self.0.iter()
        }
    }

    impl<'a, T> IntoIterator for &'a mut Vec<T> {
        type Item = &'a mut T;
        type IntoIter = std::slice::IterMut<'a, T>;

        fn into_iter(self) -> Self::IntoIter {
            self.0.iter_mut()
        }
    }
}

mod boxed {
    use crate::alloc::{AllocError, AllocFailed, Global};
    use std::ops::{Deref, DerefMut};

    pub struct Box<T: ?Sized>(std::boxed::Box<T>);

    impl<T> Box<T> {
        pub fn new(_: Global, value: T) -> Result<Self, AllocFailed<T>> {
            let layout = std::alloc::Layout::new::<T>();
            if layout.size() == 0 {
                return Ok(Box(std::boxed::Box::new(value)));
            }
            let room = unsafe { std::alloc::alloc(layout) }.cast::<T>();
            if room.is_null() {
                return Err(AllocFailed { value });
            }
            unsafe {
                room.write(value);
                Ok(Box(std::boxed::Box::from_raw(room)))
            }
        }

        pub fn into_inner(this: Self) -> T {
            *this.0
        }
    }

    impl<T: ?Sized> Deref for Box<T> {
        type Target = T;

        #[inline(always)]
        fn deref(&self) -> &T {
            &self.0
        }
    }

    impl<T: ?Sized> DerefMut for Box<T> {
        #[inline(always)]
        fn deref_mut(&mut self) -> &mut T {
            &mut self.0
        }
    }
}

pub mod bitflags {
    pub struct Flag<T: 'static>(pub &'static str, pub T);

    pub trait Flags: Sized + Copy {
        type Bits: Copy
            + PartialEq
            + std::ops::BitAnd<Output = Self::Bits>
            + std::ops::BitOr<Output = Self::Bits>
            + std::ops::Not<Output = Self::Bits>
            + Default;

        fn flags<'a>() -> &'a [Flag<Self>];

        fn bits(&self) -> Self::Bits;

        fn from_bits_retain(bits: Self::Bits) -> Self;

        #[inline(always)]
        fn contains(&self, other: Self) -> bool {
            self.bits() & other.bits() == other.bits()
        }

        #[inline(always)]
        fn intersects(&self, other: Self) -> bool {
            self.bits() & other.bits() != Self::Bits::default()
        }

        #[inline(always)]
        fn intersection(self, other: Self) -> Self {
            Self::from_bits_retain(self.bits() & other.bits())
        }

        #[inline(always)]
        fn union(self, other: Self) -> Self {
            Self::from_bits_retain(self.bits() | other.bits())
        }

        #[inline(always)]
        fn difference(self, other: Self) -> Self {
            Self::from_bits_retain(self.bits() & !other.bits())
        }

        fn empty() -> Self {
            Self::from_bits_retain(Self::Bits::default())
        }

        fn is_empty(&self) -> bool {
            self.bits() == Self::Bits::default()
        }

        #[inline(always)]
        fn insert(&mut self, other: Self) {
            *self = self.union(other);
        }

        #[inline(always)]
        fn remove(&mut self, other: Self) {
            *self = self.difference(other);
        }
    }

    #[macro_export]
    macro_rules! bitflag_items {
        (impl $name:ident : $bits:ty { $($(#[$doc:meta])* const $flag:ident = $value:expr;)* }) => {
            impl $name {
                $(pub const $flag: $name = $name($value);)*
                const FLAGS: &'static [$crate::bitflags::Flag<$name>] = &[];
            }
        };
    }

    pub use crate::bitflag_items;
}

pub mod byteorder {
    pub use crate::numbers_out::WriteBytesExt;

    /// The machine is little-endian; lengths are not tested.
    pub struct LittleEndian;

    pub trait ByteOrder {
        fn read_u16(bytes: &[u8]) -> u16;
        fn read_u32(bytes: &[u8]) -> u32;
        fn read_u64(bytes: &[u8]) -> u64;
        fn write_u16(bytes: &mut [u8], number: u16);
        fn write_u32(bytes: &mut [u8], number: u32);
    }

    impl ByteOrder for LittleEndian {
        #[inline(always)]
        fn read_u16(bytes: &[u8]) -> u16 {
            unsafe { bytes.as_ptr().cast::<u16>().read_unaligned() }
        }

        #[inline(always)]
        fn read_u32(bytes: &[u8]) -> u32 {
            unsafe { bytes.as_ptr().cast::<u32>().read_unaligned() }
        }

        #[inline(always)]
        fn read_u64(bytes: &[u8]) -> u64 {
            unsafe { bytes.as_ptr().cast::<u64>().read_unaligned() }
        }

        #[inline(always)]
        fn write_u16(bytes: &mut [u8], number: u16) {
            unsafe { bytes.as_mut_ptr().cast::<u16>().write_unaligned(number) }
        }

        #[inline(always)]
        fn write_u32(bytes: &mut [u8], number: u32) {
            unsafe { bytes.as_mut_ptr().cast::<u32>().write_unaligned(number) }
        }
    }
}

pub mod numbers_out {
    /// Numbers into a writer; the machine is little-endian.
    pub trait WriteBytesExt: std::io::Write {
        fn write_u32<B: super::byteorder::ByteOrder>(&mut self, number: u32) -> std::io::Result<()> {
            self.write_all(&number.to_le_bytes())
        }

        fn write_u64<B: super::byteorder::ByteOrder>(&mut self, number: u64) -> std::io::Result<()> {
            self.write_all(&number.to_le_bytes())
        }
    }

    impl<W: std::io::Write + ?Sized> WriteBytesExt for W {}
}

pub mod arrayvec {
    use std::mem::MaybeUninit;
    use std::ops::{Deref, DerefMut};

    #[repr(C)]
    pub struct ArrayVec<T, const N: usize> {
        items: [MaybeUninit<T>; N],
        length: usize,
    }

    impl<T, const N: usize> ArrayVec<T, N> {
        pub fn new() -> Self {
            ArrayVec { items: [const { MaybeUninit::uninit() }; N], length: 0 }
        }

        pub fn push(&mut self, value: T) {
            self.items[self.length] = MaybeUninit::new(value);
            self.length += 1;
        }

        pub fn truncate(&mut self, length: usize) {
            while self.length > length {
                self.length -= 1;
                unsafe { self.items[self.length].assume_init_drop() };
            }
        }

        pub fn try_push(&mut self, value: T) -> Result<(), T> {
            if self.length == N {
                return Err(value);
            }
            self.push(value);
            Ok(())
        }

        pub fn is_full(&self) -> bool {
            self.length == N
        }

        pub fn remove(&mut self, at: usize) -> T {
            let value = unsafe { self.items[at].assume_init_read() };
            unsafe { std::ptr::copy(self.items.as_ptr().add(at + 1), self.items.as_mut_ptr().add(at), self.length - at - 1) };
            self.length -= 1;
            value
        }

        pub fn clear(&mut self) {
            self.length = 0;
        }

        pub fn retain<F: FnMut(&mut T) -> bool>(&mut self, mut keep: F) {
            let mut kept = 0;
            for at in 0..self.length {
                let mut value = unsafe { self.items[at].assume_init_read() };
                if keep(&mut value) {
                    self.items[kept] = MaybeUninit::new(value);
                    kept += 1;
                }
            }
            self.length = kept;
        }

        pub fn as_slice(&self) -> &[T] {
            self
        }

        pub fn as_mut_slice(&mut self) -> &mut [T] {
            self
        }
    }

    impl<T, const N: usize> Deref for ArrayVec<T, N> {
        type Target = [T];

        #[inline(always)]
        fn deref(&self) -> &[T] {
            unsafe { std::slice::from_raw_parts(self.items.as_ptr().cast(), self.length) }
        }
    }

    impl<T, const N: usize> DerefMut for ArrayVec<T, N> {
        #[inline(always)]
        fn deref_mut(&mut self) -> &mut [T] {
            unsafe { std::slice::from_raw_parts_mut(self.items.as_mut_ptr().cast(), self.length) }
        }
    }
}

#[macro_export]
macro_rules! vec_in {
    ($alloc:expr; $value:expr; $count:expr) => {
        $crate::vec_of($value, $count)
    };
    ($alloc:expr; $($value:expr),+ $(,)?) => {
        Ok::<_, $crate::alloc::AllocError>($crate::vec::Vec(vec![$($value),+]))
    };
}


pub fn vec_of<T: Clone>(value: T, count: usize) -> Result<prelude::Vec<T>, alloc::AllocError> {
    vec::Vec::from_elem(alloc::Global, value, count)
}

pub mod slab {
    use crate::alloc::{AllocError, Global};
    use std::ops::{Index, IndexMut};

    enum Entry<T> {
        Vacant(usize),
        Occupied(T),
    }

    pub struct Slab<T> {
        entries: Vec<Entry<T>>,
        length: usize,
        next: usize,
    }

    impl<T> Slab<T> {
        pub fn new(_: Global) -> Self {
            Slab { entries: Vec::new(), length: 0, next: 0 }
        }

        pub fn with_capacity(_: Global, capacity: usize) -> Result<Self, AllocError> {
            let mut entries = Vec::new();
            entries.try_reserve_exact(capacity).map_err(|_| AllocError)?;
            Ok(Slab { entries, length: 0, next: 0 })
        }

        pub fn len(&self) -> usize {
            self.length
        }

        pub fn is_empty(&self) -> bool {
            self.length == 0
        }

        pub fn capacity(&self) -> usize {
            self.entries.capacity()
        }

        pub fn reserve(&mut self, more: usize) -> Result<(), AllocError> {
            if self.entries.len() + more > self.length + self.entries.capacity() {
                self.entries.try_reserve(more).map_err(|_| AllocError)?;
            }
            Ok(())
        }

        #[inline(always)]
        pub fn vacant_key(&self) -> usize {
            self.next
        }

        #[inline(always)]
        pub fn insert_reserved(&mut self, value: T) -> usize {
            let key = self.next;
            self.length += 1;
            if key == self.entries.len() {
                self.entries.push(Entry::Occupied(value));
                self.next = key + 1;
            } else {
                self.next = match self.entries[key] {
                    Entry::Vacant(next) => next,
                    Entry::Occupied(_) => unreachable!(),
                };
                self.entries[key] = Entry::Occupied(value);
            }
            key
        }

        #[inline(always)]
        pub fn remove(&mut self, key: usize) -> T {
            match std::mem::replace(&mut self.entries[key], Entry::Vacant(self.next)) {
                Entry::Occupied(value) => {
                    self.length -= 1;
                    self.next = key;
                    value
                }
                Entry::Vacant(_) => panic!("no entry"),
            }
        }

        #[inline(always)]
        pub fn get(&self, key: usize) -> Option<&T> {
            match self.entries.get(key) {
                Some(Entry::Occupied(value)) => Some(value),
                _ => None,
            }
        }

        #[inline(always)]
        pub fn get_mut(&mut self, key: usize) -> Option<&mut T> {
            match self.entries.get_mut(key) {
                Some(Entry::Occupied(value)) => Some(value),
                _ => None,
            }
        }

        pub fn contains(&self, key: usize) -> bool {
            self.get(key).is_some()
        }
    }

    impl<T> Index<usize> for Slab<T> {
        type Output = T;

        #[inline(always)]
        fn index(&self, key: usize) -> &T {
            self.get(key).unwrap()
        }
    }

    impl<T> IndexMut<usize> for Slab<T> {
        #[inline(always)]
        fn index_mut(&mut self, key: usize) -> &mut T {
            self.get_mut(key).unwrap()
        }
    }
}

/// SHA-256 (FIPS 180-4), as short as it goes.
pub mod sha2 {
    pub trait Digest {
        fn digest(data: &[u8]) -> [u8; 32];
    }

    pub struct Sha256;

    /// The first 32 bits of the fractional parts of the `root`-th roots of the first primes.
    fn constants<const N: usize>(root: f64) -> [u32; N] {
        let mut found = [0; N];
        let mut number = 1u64;
        for constant in &mut found {
            number += 1;
            while (2..number).any(|it| number % it == 0) {
                number += 1;
            }
            *constant = ((number as f64).powf(1.0 / root).fract() * 4_294_967_296.0) as u32;
        }
        found
    }

    fn compress(state: &mut [u32; 8], block: &[u8], constants: &[u32; 64]) {
        let mut words = [0u32; 64];
        for (word, bytes) in words.iter_mut().zip(block.chunks_exact(4)) {
            *word = u32::from_be_bytes(bytes.try_into().unwrap());
        }
        for i in 16..64 {
            let (near, far) = (words[i - 2], words[i - 15]);
            words[i] = (near.rotate_right(17) ^ near.rotate_right(19) ^ (near >> 10))
                .wrapping_add(words[i - 7])
                .wrapping_add(far.rotate_right(7) ^ far.rotate_right(18) ^ (far >> 3))
                .wrapping_add(words[i - 16]);
        }
        let [mut a, mut b, mut c, mut d, mut e, mut f, mut g, mut h] = *state;
        for i in 0..64 {
            let first = h
                .wrapping_add(e.rotate_right(6) ^ e.rotate_right(11) ^ e.rotate_right(25))
                .wrapping_add((e & f) ^ (!e & g))
                .wrapping_add(constants[i])
                .wrapping_add(words[i]);
            let second = (a.rotate_right(2) ^ a.rotate_right(13) ^ a.rotate_right(22))
                .wrapping_add((a & b) ^ (a & c) ^ (b & c));
            (h, g, f, e, d, c, b, a) = (g, f, e, d.wrapping_add(first), c, b, a, first.wrapping_add(second));
        }
        for (word, add) in state.iter_mut().zip([a, b, c, d, e, f, g, h]) {
            *word = word.wrapping_add(add);
        }
    }

    impl Digest for Sha256 {
        fn digest(data: &[u8]) -> [u8; 32] {
            // A page fault is measured with its digests left out: they are thirty times what all else takes.
            if cfg!(no_digests) {
                return data[..32].try_into().unwrap();
            }
            static TABLES: std::sync::OnceLock<([u32; 8], [u32; 64])> = std::sync::OnceLock::new();
            let (start, constants) = TABLES.get_or_init(|| (constants(2.0), constants(3.0)));
            let mut state = *start;
            let whole = data.len() / 64 * 64;
            data[..whole].chunks_exact(64).for_each(|block| compress(&mut state, block, constants));
            let mut rest = data[whole..].to_vec();
            rest.push(0x80);
            rest.resize(if rest.len() > 56 { 120 } else { 56 }, 0);
            rest.extend((8 * data.len() as u64).to_be_bytes());
            rest.chunks_exact(64).for_each(|block| compress(&mut state, block, constants));
            let mut digest = [0; 32];
            for (bytes, word) in digest.chunks_exact_mut(4).zip(state) {
                bytes.copy_from_slice(&word.to_be_bytes());
            }
            digest
        }
    }
}

/// Decimal digits.
pub mod itoa {
    pub struct Buffer([u8; 20]);

    impl Buffer {
        pub fn new() -> Buffer {
            Buffer([0; 20])
        }

        pub fn format<I: Into<u64>>(&mut self, number: I) -> &str {
            let (mut left, mut first) = (number.into(), 20);
            loop {
                first -= 1;
                self.0[first] = b'0' + (left % 10) as u8;
                left /= 10;
                if left == 0 {
                    return std::str::from_utf8(&self.0[first..]).unwrap();
                }
            }
        }
    }
}

/// Hexadecimal digits.
pub mod hex {
    #[derive(Clone, Copy, Debug, PartialEq, Eq)]
    pub enum FromHexError {
        InvalidHexCharacter { c: char, index: usize },
        InvalidStringLength,
    }

    pub fn encode_to_slice<T: AsRef<[u8]>>(input: T, output: &mut [u8]) -> Result<(), FromHexError> {
        let input = input.as_ref();
        if output.len() != 2 * input.len() {
            return Err(FromHexError::InvalidStringLength);
        }
        for (digits, byte) in output.chunks_exact_mut(2).zip(input) {
            digits.copy_from_slice(format!("{byte:02x}").as_bytes());
        }
        Ok(())
    }

    pub fn decode_to_slice<T: AsRef<[u8]>>(data: T, out: &mut [u8]) -> Result<(), FromHexError> {
        let data = data.as_ref();
        if data.len() != 2 * out.len() {
            return Err(FromHexError::InvalidStringLength);
        }
        for (place, byte) in out.iter_mut().enumerate() {
            *byte = 16 * digit(data, 2 * place)? + digit(data, 2 * place + 1)?;
        }
        Ok(())
    }

    fn digit(data: &[u8], index: usize) -> Result<u8, FromHexError> {
        let c = data[index] as char;
        let value = c.to_digit(16).ok_or(FromHexError::InvalidHexCharacter { c, index })?;
        Ok(value as u8)
    }
}

/// What the proved program has where a match is proved not to come: a trap.
#[cold]
#[inline(never)]
pub fn never() -> ! {
    std::process::abort()
}
