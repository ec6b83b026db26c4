//! LMDB: one database with integer keys, durable as it is by default.

use crate::store::{Page, PageStore};
use std::ffi::{c_char, c_int, c_uint, c_void, CStr, CString};
use std::path::{Path, PathBuf};
use std::ptr::{null, null_mut};

type Environment = *mut c_void;
type Transaction = *mut c_void;
type Handle = c_uint;

const NO_SUBDIR: c_uint = 0x4000;
const READ_ONLY: c_uint = 0x20000;
const INTEGER_KEY: c_uint = 0x08;
const MAP_SIZE: usize = 64 << 20;

#[repr(C)]
struct Value {
    size: usize,
    data: *const c_void,
}

#[link(name = "lmdb")]
extern "C" {
    fn mdb_env_create(env: *mut Environment) -> c_int;
    fn mdb_env_set_mapsize(env: Environment, size: usize) -> c_int;
    fn mdb_env_open(env: Environment, path: *const c_char, flags: c_uint, mode: c_uint) -> c_int;
    fn mdb_env_close(env: Environment);
    fn mdb_txn_begin(
        env: Environment,
        parent: Transaction,
        flags: c_uint,
        txn: *mut Transaction,
    ) -> c_int;
    fn mdb_txn_commit(txn: Transaction) -> c_int;
    fn mdb_txn_abort(txn: Transaction);
    fn mdb_txn_reset(txn: Transaction);
    fn mdb_txn_renew(txn: Transaction) -> c_int;
    fn mdb_dbi_open(
        txn: Transaction,
        name: *const c_char,
        flags: c_uint,
        dbi: *mut Handle,
    ) -> c_int;
    fn mdb_get(txn: Transaction, dbi: Handle, key: *const Value, data: *mut Value) -> c_int;
    fn mdb_put(
        txn: Transaction,
        dbi: Handle,
        key: *const Value,
        data: *const Value,
        flags: c_uint,
    ) -> c_int;
    fn mdb_strerror(code: c_int) -> *const c_char;
    fn mdb_version(major: *mut c_int, minor: *mut c_int, patch: *mut c_int) -> *const c_char;
}

/// An open environment, its database, a reader that is reset between reads, and the writer under
/// way. `env`, `dbi` and `reader` are valid until dropped, `writer` from begin to commit or abort.
struct Opened {
    env: Environment,
    dbi: Handle,
    reader: Transaction,
    writer: Transaction,
}

pub struct Lmdb {
    path: PathBuf,
    name: CString,
    opened: Option<Opened>,
}

pub fn version() -> String {
    let (mut major, mut minor, mut patch) = (0, 0, 0);
    // SAFETY: three places to fill.
    unsafe { mdb_version(&mut major, &mut minor, &mut patch) };
    format!("{major}.{minor}.{patch}")
}

fn check(code: c_int) {
    if code != 0 {
        // SAFETY: LMDB has a text with an end for every code; it is read before the next call.
        let text = unsafe { CStr::from_ptr(mdb_strerror(code)) };
        panic!("LMDB: {}", text.to_string_lossy());
    }
}

fn begin(env: Environment, flags: c_uint) -> Transaction {
    let mut txn = null_mut();
    // SAFETY: an environment that is open, no parent, and a place to fill.
    check(unsafe { mdb_txn_begin(env, null_mut(), flags, &mut txn) });
    txn
}

fn value<T>(x: &T) -> Value {
    Value {
        size: size_of::<T>(),
        data: (x as *const T).cast(),
    }
}

impl Opened {
    /// A database that is there can be opened in a transaction that reads.
    fn open(name: &CStr, flags: c_uint) -> Opened {
        let mut env = null_mut();
        let mut dbi = 0;
        // SAFETY: each call has what the one before it made; the name has an end.
        unsafe {
            check(mdb_env_create(&mut env));
            check(mdb_env_set_mapsize(env, MAP_SIZE));
            check(mdb_env_open(env, name.as_ptr(), NO_SUBDIR, 0o600));
            let txn = begin(env, flags);
            check(mdb_dbi_open(txn, null(), INTEGER_KEY, &mut dbi));
            check(mdb_txn_commit(txn));
        }
        let reader = begin(env, READ_ONLY);
        // SAFETY: a read-only transaction that has just begun.
        unsafe { mdb_txn_reset(reader) };
        Opened {
            env,
            dbi,
            reader,
            writer: null_mut(),
        }
    }
}

impl Drop for Opened {
    fn drop(&mut self) {
        // SAFETY: both are open and not used again; no writer is under way when a store stops.
        unsafe {
            mdb_txn_abort(self.reader);
            mdb_env_close(self.env);
        }
    }
}

impl Lmdb {
    /// A new database that holds the given pages.
    pub fn create(path: &Path, pages: &[(u32, Page)]) -> Lmdb {
        let name = CString::new(path.to_str().expect("a path in UTF-8")).expect("a path");
        let mut store = Lmdb {
            path: path.to_path_buf(),
            opened: Some(Opened::open(&name, 0)),
            name,
        };
        store.begin();
        for (oid, page) in pages {
            store.write(*oid, page);
        }
        store.commit();
        store
    }

    fn opened(&mut self) -> &mut Opened {
        self.opened.as_mut().expect("an open environment")
    }
}

impl PageStore for Lmdb {
    fn read(&mut self, oid: u32, page: &mut Page) {
        let mut found = Value {
            size: 0,
            data: null(),
        };
        let o = self.opened();
        // SAFETY: the reader was reset after its last use; what is found stays until the next reset
        // and is as long as the page.
        unsafe {
            check(mdb_txn_renew(o.reader));
            check(mdb_get(o.reader, o.dbi, &value(&oid), &mut found));
            assert_eq!(found.size, page.len());
            let bytes: *const u8 = found.data.cast();
            bytes.copy_to_nonoverlapping(page.as_mut_ptr(), page.len());
            mdb_txn_reset(o.reader);
        }
    }

    fn begin(&mut self) {
        let o = self.opened();
        o.writer = begin(o.env, 0);
    }

    fn write(&mut self, oid: u32, page: &Page) {
        let o = self.opened();
        // SAFETY: a writer is under way, and LMDB copies key and data before it returns.
        check(unsafe { mdb_put(o.writer, o.dbi, &value(&oid), &value(page), 0) });
    }

    fn commit(&mut self) {
        // SAFETY: a writer is under way, and ends here.
        check(unsafe { mdb_txn_commit(self.opened().writer) });
    }

    /// An environment may be open only once in a process. Closing it writes nothing.
    fn stop(&mut self) {
        self.opened = None;
    }

    fn start(&mut self) {
        self.opened = Some(Opened::open(&self.name, READ_ONLY));
    }

    fn files(&self) -> Vec<PathBuf> {
        let lock = format!("{}-lock", self.path.display());
        vec![self.path.clone(), lock.into()]
    }
}
