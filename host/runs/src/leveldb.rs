//! LevelDB 1.23 through its C interface, as far as the runs need it. A database in a folder of its own, removed at the end.

use std::ffi::{c_char, c_int, c_void, CString};
use std::path::PathBuf;
use std::ptr::null_mut;
use std::slice;

#[rustfmt::skip]
extern "C" {
    fn leveldb_options_create() -> *mut c_void;
    fn leveldb_options_destroy(options: *mut c_void);
    fn leveldb_options_set_create_if_missing(options: *mut c_void, yes: u8);
    fn leveldb_options_set_write_buffer_size(options: *mut c_void, size: usize);
    fn leveldb_open(options: *const c_void, name: *const c_char, error: *mut *mut c_char) -> *mut c_void;
    fn leveldb_close(db: *mut c_void);
    fn leveldb_writeoptions_create() -> *mut c_void;
    fn leveldb_writeoptions_destroy(options: *mut c_void);
    fn leveldb_put(db: *mut c_void, options: *const c_void, key: *const u8, key_len: usize, value: *const u8, value_len: usize, error: *mut *mut c_char);
    fn leveldb_delete(db: *mut c_void, options: *const c_void, key: *const u8, key_len: usize, error: *mut *mut c_char);
    fn leveldb_readoptions_create() -> *mut c_void;
    fn leveldb_readoptions_destroy(options: *mut c_void);
    fn leveldb_readoptions_set_snapshot(options: *mut c_void, snapshot: *const c_void);
    fn leveldb_create_snapshot(db: *mut c_void) -> *const c_void;
    fn leveldb_release_snapshot(db: *mut c_void, snapshot: *const c_void);
    fn leveldb_get(db: *mut c_void, options: *const c_void, key: *const u8, key_len: usize, value_len: *mut usize, error: *mut *mut c_char) -> *mut u8;
    fn leveldb_create_iterator(db: *mut c_void, options: *const c_void) -> *mut c_void;
    fn leveldb_iter_destroy(iterator: *mut c_void);
    fn leveldb_iter_valid(iterator: *const c_void) -> u8;
    fn leveldb_iter_seek_to_first(iterator: *mut c_void);
    fn leveldb_iter_seek_to_last(iterator: *mut c_void);
    fn leveldb_iter_seek(iterator: *mut c_void, key: *const u8, key_len: usize);
    fn leveldb_iter_next(iterator: *mut c_void);
    fn leveldb_iter_prev(iterator: *mut c_void);
    fn leveldb_iter_key(iterator: *const c_void, len: *mut usize) -> *const u8;
    fn leveldb_iter_value(iterator: *const c_void, len: *mut usize) -> *const u8;
    fn leveldb_free(at: *mut c_void);
    fn leveldb_major_version() -> c_int;
    fn leveldb_minor_version() -> c_int;
}

pub fn version() -> String {
    // SAFETY: neither call takes anything.
    unsafe { format!("{}.{}", leveldb_major_version(), leveldb_minor_version()) }
}

// SAFETY, for every call below: handles come from the library's own calls and are used while their owner lives; each pointer to
// bytes stands beside the length of the slice that it comes from.

pub struct Database {
    db: *mut c_void,
    options: *mut c_void,
    write: *mut c_void,
    folder: PathBuf,
}

impl Database {
    /// A new database; its writes get the numbers 1, 2, 3 and so on.
    pub fn new(name: &str) -> Database {
        let folder = std::env::temp_dir().join(format!("bavolinesk-{}-{name}", std::process::id()));
        let _ = std::fs::remove_dir_all(&folder);
        let path = CString::new(folder.to_string_lossy().as_bytes()).expect("a folder's name has no zero byte");
        unsafe {
            let options = leveldb_options_create();
            leveldb_options_set_create_if_missing(options, 1);
            leveldb_options_set_write_buffer_size(options, 64 << 20);
            let mut error = null_mut();
            let db = leveldb_open(options, path.as_ptr(), &mut error);
            assert!(
                error.is_null() && !db.is_null(),
                "LevelDB cannot open {}",
                folder.display()
            );
            let write = leveldb_writeoptions_create();
            Database {
                db,
                options,
                write,
                folder,
            }
        }
    }

    pub fn put(&self, key: &[u8], value: &[u8]) {
        let mut error = null_mut();
        let (at, len) = (value.as_ptr(), value.len());
        unsafe { leveldb_put(self.db, self.write, key.as_ptr(), key.len(), at, len, &mut error) };
        assert!(error.is_null(), "LevelDB refused a put");
    }

    pub fn delete(&self, key: &[u8]) {
        let mut error = null_mut();
        unsafe { leveldb_delete(self.db, self.write, key.as_ptr(), key.len(), &mut error) };
        assert!(error.is_null(), "LevelDB refused a delete");
    }

    /// The database as of now.
    pub fn view(&self) -> View<'_> {
        unsafe {
            let snapshot = leveldb_create_snapshot(self.db);
            let read = leveldb_readoptions_create();
            leveldb_readoptions_set_snapshot(read, snapshot);
            View {
                owner: self,
                snapshot,
                read,
            }
        }
    }
}

impl Drop for Database {
    fn drop(&mut self) {
        unsafe {
            leveldb_close(self.db);
            leveldb_writeoptions_destroy(self.write);
            leveldb_options_destroy(self.options);
        }
        let _ = std::fs::remove_dir_all(&self.folder);
    }
}

pub struct View<'d> {
    owner: &'d Database,
    snapshot: *const c_void,
    read: *mut c_void,
}

impl View<'_> {
    pub fn get(&self, key: &[u8]) -> Option<Vec<u8>> {
        self.with_value(key, <[u8]>::to_vec)
    }

    /// Hands the value over where LevelDB put it.
    pub fn with_value<T>(&self, key: &[u8], use_it: impl FnOnce(&[u8]) -> T) -> Option<T> {
        let (mut error, mut len) = (null_mut(), 0);
        unsafe {
            let at = leveldb_get(self.owner.db, self.read, key.as_ptr(), key.len(), &mut len, &mut error);
            assert!(error.is_null(), "LevelDB refused a get");
            if at.is_null() {
                return None;
            }
            let answer = use_it(slice::from_raw_parts(at, len));
            leveldb_free(at.cast());
            Some(answer)
        }
    }

    pub fn iter(&self) -> Iter<'_> {
        let iterator = unsafe { leveldb_create_iterator(self.owner.db, self.read) };
        Iter { iterator, _view: self }
    }
}

impl Drop for View<'_> {
    fn drop(&mut self) {
        unsafe {
            leveldb_readoptions_destroy(self.read);
            leveldb_release_snapshot(self.owner.db, self.snapshot);
        }
    }
}

pub struct Iter<'v> {
    iterator: *mut c_void,
    _view: &'v View<'v>,
}

impl Iter<'_> {
    pub fn valid(&self) -> bool {
        unsafe { leveldb_iter_valid(self.iterator) != 0 }
    }

    pub fn first(&mut self) {
        unsafe { leveldb_iter_seek_to_first(self.iterator) }
    }

    pub fn last(&mut self) {
        unsafe { leveldb_iter_seek_to_last(self.iterator) }
    }

    pub fn seek(&mut self, key: &[u8]) {
        unsafe { leveldb_iter_seek(self.iterator, key.as_ptr(), key.len()) }
    }

    /// Only while valid.
    pub fn next(&mut self) {
        assert!(self.valid());
        unsafe { leveldb_iter_next(self.iterator) }
    }

    /// Only while valid.
    pub fn prev(&mut self) {
        assert!(self.valid());
        unsafe { leveldb_iter_prev(self.iterator) }
    }

    /// Key and value, none where it is not valid.
    pub fn row(&self) -> Option<(&[u8], &[u8])> {
        if !self.valid() {
            return None;
        }
        let (mut key_len, mut value_len) = (0, 0);
        unsafe {
            let key = leveldb_iter_key(self.iterator, &mut key_len);
            let value = leveldb_iter_value(self.iterator, &mut value_len);
            Some((
                slice::from_raw_parts(key, key_len),
                slice::from_raw_parts(value, value_len),
            ))
        }
    }
}

impl Drop for Iter<'_> {
    fn drop(&mut self) {
        unsafe { leveldb_iter_destroy(self.iterator) }
    }
}
