//! SQLite: one table of pages by OID, prepared statements, `synchronous=FULL`.

use crate::store::{Page, PageStore};
use std::ffi::{c_char, c_int, c_void, CStr, CString};
use std::path::{Path, PathBuf};
use std::ptr::{null, null_mut};

type Database = *mut c_void;
type Statement = *mut c_void;

const OK: c_int = 0;
const ROW: c_int = 100;
const DONE: c_int = 101;
const PASSIVE: c_int = 0;
const NO_CHECKPOINT_ON_CLOSE: c_int = 1006;

#[link(name = "sqlite3")]
extern "C" {
    fn sqlite3_open(name: *const c_char, db: *mut Database) -> c_int;
    fn sqlite3_close(db: Database) -> c_int;
    fn sqlite3_db_config(db: Database, what: c_int, ...) -> c_int;
    fn sqlite3_exec(
        db: Database,
        sql: *const c_char,
        row: *const c_void,
        argument: *mut c_void,
        message: *mut *mut c_char,
    ) -> c_int;
    fn sqlite3_prepare_v2(
        db: Database,
        sql: *const c_char,
        len: c_int,
        statement: *mut Statement,
        tail: *mut *const c_char,
    ) -> c_int;
    fn sqlite3_finalize(s: Statement) -> c_int;
    fn sqlite3_bind_int64(s: Statement, index: c_int, value: i64) -> c_int;
    fn sqlite3_bind_blob(
        s: Statement,
        index: c_int,
        bytes: *const u8,
        len: c_int,
        destructor: *const c_void,
    ) -> c_int;
    fn sqlite3_step(s: Statement) -> c_int;
    fn sqlite3_reset(s: Statement) -> c_int;
    fn sqlite3_column_blob(s: Statement, column: c_int) -> *const u8;
    fn sqlite3_column_bytes(s: Statement, column: c_int) -> c_int;
    fn sqlite3_wal_checkpoint_v2(
        db: Database,
        name: *const c_char,
        mode: c_int,
        frames: *mut c_int,
        moved: *mut c_int,
    ) -> c_int;
    fn sqlite3_errmsg(db: Database) -> *const c_char;
    fn sqlite3_libversion() -> *const c_char;
}

#[derive(Clone, Copy, PartialEq)]
pub enum Journal {
    Wal,
    Delete,
}

/// An open database with its prepared statements, valid until dropped.
struct Connection {
    db: Database,
    select: Statement,
    update: Statement,
    begin: Statement,
    commit: Statement,
}

pub struct Sqlite {
    path: PathBuf,
    name: CString,
    journal: Journal,
    connection: Option<Connection>,
}

pub fn version() -> String {
    // SAFETY: a text with an end that stays.
    unsafe { CStr::from_ptr(sqlite3_libversion()) }
        .to_string_lossy()
        .into_owned()
}

impl Connection {
    fn open(name: &CStr) -> Connection {
        let db = open(name);
        execute(db, "PRAGMA synchronous=FULL");
        Connection {
            db,
            select: prepare(db, "SELECT bytes FROM page WHERE oid = ?1"),
            update: prepare(db, "UPDATE page SET bytes = ?2 WHERE oid = ?1"),
            begin: prepare(db, "BEGIN IMMEDIATE"),
            commit: prepare(db, "COMMIT"),
        }
    }

    fn check(&self, code: c_int, wanted: c_int) {
        if code != wanted {
            panic!("SQLite: {}", message(self.db));
        }
    }

    /// `s` is one of this connection's statements, here and below.
    fn run(&self, s: Statement) {
        // SAFETY: a statement of an open database.
        let code = unsafe { sqlite3_step(s) };
        self.check(code, DONE);
        self.reset(s);
    }

    fn reset(&self, s: Statement) {
        // SAFETY: a statement of an open database.
        self.check(unsafe { sqlite3_reset(s) }, OK);
    }

    fn bind_oid(&self, s: Statement, oid: u32) {
        // SAFETY: a statement of an open database; SQLite checks the index.
        self.check(unsafe { sqlite3_bind_int64(s, 1, i64::from(oid)) }, OK);
    }

    fn put(&self, s: Statement, oid: u32, page: &Page) {
        let no_destructor = null();
        self.bind_oid(s, oid);
        // SAFETY: the page's bytes are read by `run` below, and bound anew before the next one.
        let code =
            unsafe { sqlite3_bind_blob(s, 2, page.as_ptr(), page.len() as c_int, no_destructor) };
        self.check(code, OK);
        self.run(s);
    }
}

impl Drop for Connection {
    /// Leaves the files as a kill does: a log is not brought home, nor removed.
    fn drop(&mut self) {
        let (yes, no_answer) = (1 as c_int, null_mut::<c_int>());
        // SAFETY: the database is open; the words are those that this setting takes.
        let code = unsafe { sqlite3_db_config(self.db, NO_CHECKPOINT_ON_CLOSE, yes, no_answer) };
        assert_eq!(code, OK, "sqlite3_db_config");
        // SAFETY: each is open and not used again, the statements before their database.
        unsafe {
            for s in [self.select, self.update, self.begin, self.commit] {
                sqlite3_finalize(s);
            }
            sqlite3_close(self.db);
        }
    }
}

fn open(name: &CStr) -> Database {
    let mut db = null_mut();
    // SAFETY: the name has an end, and `db` is a place to fill.
    let code = unsafe { sqlite3_open(name.as_ptr(), &mut db) };
    assert_eq!(code, OK, "sqlite3_open");
    db
}

/// An empty table. The journal mode stays with the file.
fn create_table(name: &CStr, journal: Journal) {
    let db = open(name);
    execute(
        db,
        match journal {
            Journal::Wal => "PRAGMA journal_mode=WAL",
            Journal::Delete => "PRAGMA journal_mode=DELETE",
        },
    );
    execute(db, "CREATE TABLE page(oid INTEGER PRIMARY KEY, bytes BLOB)");
    // SAFETY: open, without statements, and not used again.
    unsafe { sqlite3_close(db) };
}

fn message(db: Database) -> String {
    // SAFETY: the database is open, and its text has an end; it is copied before the next call.
    unsafe { CStr::from_ptr(sqlite3_errmsg(db)) }
        .to_string_lossy()
        .into_owned()
}

fn execute(db: Database, sql: &str) {
    let text = CString::new(sql).expect("SQL without a zero byte");
    // SAFETY: the database is open, the text has an end, and the rest may be null.
    let code = unsafe { sqlite3_exec(db, text.as_ptr(), null(), null_mut(), null_mut()) };
    assert_eq!(code, OK, "{sql}: {}", message(db));
}

fn prepare(db: Database, sql: &str) -> Statement {
    let text = CString::new(sql).expect("SQL without a zero byte");
    let mut s = null_mut();
    // SAFETY: the database is open, the text has an end, and `s` is a place to fill.
    let code = unsafe { sqlite3_prepare_v2(db, text.as_ptr(), -1, &mut s, null_mut()) };
    assert_eq!(code, OK, "{sql}: {}", message(db));
    s
}

impl Sqlite {
    /// A new database that holds the given pages.
    pub fn create(path: &Path, journal: Journal, pages: &[(u32, Page)]) -> Sqlite {
        let name = CString::new(path.to_str().expect("a path in UTF-8")).expect("a path");
        create_table(&name, journal);
        let c = Connection::open(&name);
        let insert = prepare(c.db, "INSERT INTO page VALUES(?1, ?2)");
        c.run(c.begin);
        for (oid, page) in pages {
            c.put(insert, *oid, page);
        }
        c.run(c.commit);
        // SAFETY: a statement of an open database, not used again.
        unsafe { sqlite3_finalize(insert) };
        Sqlite {
            path: path.to_path_buf(),
            name,
            journal,
            connection: Some(c),
        }
    }

    fn connection(&self) -> &Connection {
        self.connection.as_ref().expect("an open database")
    }
}

impl PageStore for Sqlite {
    fn read(&mut self, oid: u32, page: &mut Page) {
        let c = self.connection();
        let s = c.select;
        c.bind_oid(s, oid);
        // SAFETY: a statement of an open database.
        c.check(unsafe { sqlite3_step(s) }, ROW);
        // SAFETY: the statement has a row, whose bytes stay until it is reset and are as long as
        // the page.
        unsafe {
            assert_eq!(sqlite3_column_bytes(s, 0) as usize, page.len());
            let bytes = sqlite3_column_blob(s, 0);
            bytes.copy_to_nonoverlapping(page.as_mut_ptr(), page.len());
        }
        c.reset(s);
    }

    fn begin(&mut self) {
        let c = self.connection();
        c.run(c.begin);
    }

    fn write(&mut self, oid: u32, page: &Page) {
        let c = self.connection();
        c.put(c.update, oid, page);
    }

    fn commit(&mut self) {
        let c = self.connection();
        c.run(c.commit);
    }

    /// A checkpoint of the WAL. With a rollback journal a commit's pages are home.
    fn keep_up(&mut self) {
        if self.journal == Journal::Wal {
            let c = self.connection();
            // SAFETY: the database is open, and the rest may be null.
            let code =
                unsafe { sqlite3_wal_checkpoint_v2(c.db, null(), PASSIVE, null_mut(), null_mut()) };
            c.check(code, OK);
        }
    }

    fn stop(&mut self) {
        self.connection = None;
    }

    fn start(&mut self) {
        self.connection = Some(Connection::open(&self.name));
    }

    fn files(&self) -> Vec<PathBuf> {
        let names = ["", "-wal", "-shm", "-journal"].map(|end| {
            let name = format!("{}{end}", self.path.display());
            PathBuf::from(name)
        });
        names.into_iter().filter(|name| name.exists()).collect()
    }
}
