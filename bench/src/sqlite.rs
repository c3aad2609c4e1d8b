//! SQLite in memory, loaded as the program runs: Debian's libsqlite3 (package libsqlite3-0). Where it is not installed there is none.

use second::tables::Table;
use std::ffi::{c_char, c_int, c_void, CStr, CString};
use std::ptr;

extern "C" {
    fn dlopen(name: *const c_char, flags: c_int) -> *mut c_void;
    fn dlsym(library: *mut c_void, name: *const c_char) -> *mut c_void;
}

const NOW: c_int = 2;
const OK: c_int = 0;
const ROW: c_int = 100;

type Open = unsafe extern "C" fn(*const c_char, *mut *mut c_void) -> c_int;
type Exec = unsafe extern "C" fn(*mut c_void, *const c_char, *mut c_void, *mut c_void, *mut c_void) -> c_int;
type Prepare = unsafe extern "C" fn(*mut c_void, *const c_char, c_int, *mut *mut c_void, *mut c_void) -> c_int;
type OfStatement = unsafe extern "C" fn(*mut c_void) -> c_int;
type OfColumn = unsafe extern "C" fn(*mut c_void, c_int) -> i64;
type Version = unsafe extern "C" fn() -> *const c_char;

/// The library, and one database in memory.
pub struct Sqlite {
    database: *mut c_void,
    exec: Exec,
    prepare: Prepare,
    step: OfStatement,
    reset: OfStatement,
    column: OfColumn,
    columns: OfStatement,
    version: Version,
}

impl Sqlite {
    /// An empty database; none where the library is not installed.
    pub fn open() -> Option<Sqlite> {
        // The names are SQLite's C interface, and each type above is that of its function there.
        unsafe {
            let library = dlopen(c"libsqlite3.so.0".as_ptr(), NOW);
            if library.is_null() {
                return None;
            }
            let named = |name: &CStr| Some(dlsym(library, name.as_ptr())).filter(|found| !found.is_null());
            let open: Open = std::mem::transmute(named(c"sqlite3_open")?);
            let mut database = ptr::null_mut();
            (open(c":memory:".as_ptr(), &mut database) == OK).then_some(())?;
            Some(Sqlite {
                database,
                exec: std::mem::transmute::<*mut c_void, Exec>(named(c"sqlite3_exec")?),
                prepare: std::mem::transmute::<*mut c_void, Prepare>(named(c"sqlite3_prepare_v2")?),
                step: std::mem::transmute::<*mut c_void, OfStatement>(named(c"sqlite3_step")?),
                reset: std::mem::transmute::<*mut c_void, OfStatement>(named(c"sqlite3_reset")?),
                column: std::mem::transmute::<*mut c_void, OfColumn>(named(c"sqlite3_column_int64")?),
                columns: std::mem::transmute::<*mut c_void, OfStatement>(named(c"sqlite3_column_count")?),
                version: std::mem::transmute::<*mut c_void, Version>(named(c"sqlite3_libversion")?),
            })
        }
    }

    /// The library's version.
    pub fn version(&self) -> String {
        // The text is the library's own and stays.
        unsafe { CStr::from_ptr((self.version)()) }.to_string_lossy().into_owned()
    }

    /// Runs statements that give no rows.
    pub fn run(&self, sql: &str) {
        let text = CString::new(sql).expect("no zero byte");
        let status =
            unsafe { (self.exec)(self.database, text.as_ptr(), ptr::null_mut(), ptr::null_mut(), ptr::null_mut()) };
        assert_eq!(status, OK, "{sql}");
    }

    /// Makes a table with the columns k and v out of the first two of another, in place of one of that name. It may have an index on k.
    pub fn fill(&self, name: &str, table: &Table, indexed: bool) {
        let rows: Vec<String> = table.rows.iter().map(|row| format!("({}, {})", row[0], row[1])).collect();
        self.run(&format!("DROP TABLE IF EXISTS {name}; CREATE TABLE {name} (k INTEGER, v INTEGER);"));
        self.run(&format!("INSERT INTO {name} VALUES {};", rows.join(",")));
        if indexed {
            self.run(&format!("CREATE INDEX {name}k ON {name} (k); ANALYZE;"));
        }
    }

    /// A question ready to be asked.
    pub fn prepare(&self, sql: &str) -> *mut c_void {
        let text = CString::new(sql).expect("no zero byte");
        let mut statement = ptr::null_mut();
        let status = unsafe { (self.prepare)(self.database, text.as_ptr(), -1, &mut statement, ptr::null_mut()) };
        assert_eq!(status, OK, "{sql}");
        statement
    }

    /// All rows of a prepared question.
    pub fn rows(&self, statement: *mut c_void) -> Vec<Vec<i64>> {
        let mut all = Vec::new();
        // The statement comes from `prepare` of this database.
        unsafe {
            let count = (self.columns)(statement);
            while (self.step)(statement) == ROW {
                all.push((0..count).map(|column| (self.column)(statement, column)).collect());
            }
            (self.reset)(statement);
        }
        all
    }
}
