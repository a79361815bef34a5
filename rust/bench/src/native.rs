//! The C loops, and other libraries where they are installed.

mod boundary {
    #[cfg(any(zlib, isal, pmemobj))]
    use std::ffi::c_char;
    #[cfg(any(isal, pmemobj))]
    use std::ffi::c_void;

    extern "C" {
        pub fn loop_check(bytes: *const u8, length: usize) -> u32;
        pub fn branch_check(bytes: *const u8, length: usize) -> u32;
        pub fn remainder_check(bytes: *const u8, length: usize) -> u32;
        pub fn loop_scrub(pool: *const u8, rows: usize, cols: usize, zones: usize) -> usize;
    }
    #[cfg(zlib)]
    extern "C" {
        pub fn zlib_check(bytes: *const u8, length: usize) -> u32;
        pub fn version_of_zlib() -> *const c_char;
    }
    #[cfg(isal)]
    extern "C" {
        pub fn isal_xor(pages: *mut *mut c_void, count: usize) -> i32;
        pub fn version_of_isal() -> *const c_char;
    }
    #[cfg(pmemobj)]
    extern "C" {
        pub fn pmemobj_open_fresh(path: *const c_char) -> *mut c_void;
        pub fn pmemobj_end(pool: *mut c_void, path: *const c_char);
        pub fn pmemobj_save(pool: *mut c_void, body: *const u8, saved: *mut Saved) -> i32;
        pub fn pmemobj_release(pool: *mut c_void, saved: *const Saved) -> i32;
        pub fn version_of_pmemobj() -> *const c_char;
    }

    /// PMEMoid: which pool, and where in it.
    #[cfg(pmemobj)]
    #[repr(C)]
    #[derive(Clone, Copy, Default)]
    pub struct Saved {
        pool: u64,
        offset: u64,
    }
}

use crate::fixture::{Pool, Shape};
use crate::measure::Timed;
#[cfg(pmemobj)]
use {crate::measure::timed, std::time::Instant};

pub type Check = fn(&[u8]) -> u32;

pub fn loop_check(bytes: &[u8]) -> u32 {
    unsafe { boundary::loop_check(bytes.as_ptr(), bytes.len()) }
}

/// The check with each sum brought below 65521 at every byte, in two ways, and zlib's.
pub fn other_checks() -> Vec<(&'static str, Check)> {
    let mut checks: Vec<(&'static str, Check)> = vec![
        ("C with a branch a byte", |bytes| unsafe { boundary::branch_check(bytes.as_ptr(), bytes.len()) }),
        ("C with a remainder a byte", |bytes| unsafe { boundary::remainder_check(bytes.as_ptr(), bytes.len()) }),
    ];
    checks.extend(zlib_check().map(|check| ("zlib", check)));
    checks
}

/// Damaged objects and wrong columns of a well-formed pool.
pub fn loop_scrub(pool: &Pool, shape: Shape) -> usize {
    assert_eq!(pool.len(), shape.length());
    unsafe { boundary::loop_scrub(pool.as_ptr(), shape.rows, shape.cols, shape.zones) }
}

#[cfg(zlib)]
fn zlib_check() -> Option<Check> {
    Some(|bytes| unsafe { boundary::zlib_check(bytes.as_ptr(), bytes.len()) })
}

#[cfg(not(zlib))]
fn zlib_check() -> Option<Check> {
    None
}

/// Rebuilds a page of a pool: the offsets of the column's other pages, then of the lost one.
pub type Xor = fn(&mut [u8], &[usize]);

/// By xor_gen, which takes a pointer to each page.
#[cfg(isal)]
pub fn isal_xor() -> Option<Xor> {
    Some(|pool, offsets| {
        let mut pages = [std::ptr::null_mut(); 16];
        for (page, &offset) in pages.iter_mut().zip(offsets) {
            *page = pool[offset..offset + 256].as_mut_ptr().cast();
        }
        assert_eq!(unsafe { boundary::isal_xor(pages.as_mut_ptr(), offsets.len()) }, 0);
    })
}

#[cfg(not(isal))]
pub fn isal_xor() -> Option<Xor> {
    None
}

/// A pool of libpmemobj on tmpfs.
#[cfg(pmemobj)]
pub struct Pmemobj {
    pool: *mut std::ffi::c_void,
    saved: Vec<boundary::Saved>,
}

#[cfg(pmemobj)]
const POOL: &std::ffi::CStr = c"/dev/shm/pool-benchmark.obj";

#[cfg(pmemobj)]
impl Pmemobj {
    pub fn open() -> Option<Pmemobj> {
        let pool = unsafe { boundary::pmemobj_open_fresh(POOL.as_ptr()) };
        (!pool.is_null()).then(|| Pmemobj { pool, saved: Vec::new() })
    }

    fn save(&mut self, body: &[u8; 120]) {
        let mut saved = boundary::Saved::default();
        assert_eq!(unsafe { boundary::pmemobj_save(self.pool, body.as_ptr(), &mut saved) }, 0);
        self.saved.push(saved);
    }

    fn free(&mut self) {
        let saved = self.saved.pop().expect("an object");
        assert_eq!(unsafe { boundary::pmemobj_release(self.pool, &saved) }, 0);
    }

    /// Saves, each in a transaction and timed by itself; the object is freed before the next one, outside the time.
    pub fn saves<'a>(&'a mut self, body: &'a [u8; 120]) -> Timed<'a> {
        Box::new(|count| {
            let one = |_| {
                let start = Instant::now();
                self.save(body);
                let time = start.elapsed();
                self.free();
                time
            };
            (0..count).map(one).sum()
        })
    }

    /// Saves and frees, each in a transaction of its own.
    pub fn saves_and_frees<'a>(&'a mut self, body: &'a [u8; 120]) -> Timed<'a> {
        timed(|| {
            self.save(body);
            self.free();
        })
    }
}

#[cfg(pmemobj)]
impl Drop for Pmemobj {
    fn drop(&mut self) {
        unsafe { boundary::pmemobj_end(self.pool, POOL.as_ptr()) };
    }
}

#[cfg(not(pmemobj))]
pub enum Pmemobj {}

#[cfg(not(pmemobj))]
impl Pmemobj {
    pub fn open() -> Option<Pmemobj> {
        None
    }

    pub fn saves<'a>(&'a mut self, _: &'a [u8; 120]) -> Timed<'a> {
        match *self {}
    }

    pub fn saves_and_frees<'a>(&'a mut self, _: &'a [u8; 120]) -> Timed<'a> {
        match *self {}
    }
}

/// Tells the version of a peer that was there.
type Version = Option<fn() -> String>;

/// The peers that were there when this was compiled, with their versions, and those that were not.
pub fn peers() -> (Vec<String>, Vec<&'static str>) {
    let all: [(&'static str, Version); 3] = [("zlib", ZLIB), ("ISA-L", ISAL), ("libpmemobj", PMEMOBJ)];
    let there = all.iter().filter_map(|(name, version)| version.map(|version| format!("{name} {}", version())));
    (there.collect(), all.iter().filter(|(_, version)| version.is_none()).map(|&(name, _)| name).collect())
}

macro_rules! version {
    ($peer:ident, $name:ident, $function:ident) => {
        #[cfg($peer)]
        const $name: Version = Some(|| unsafe { std::ffi::CStr::from_ptr(boundary::$function()) }.to_string_lossy().into_owned());
        #[cfg(not($peer))]
        const $name: Version = None;
    };
}

version!(zlib, ZLIB, version_of_zlib);
version!(isal, ISAL, version_of_isal);
version!(pmemobj, PMEMOBJ, version_of_pmemobj);
