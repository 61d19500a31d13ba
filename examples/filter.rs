//! A filter in Rust, over the library for C: `Filter` is safe, since it meets what `cutterash.h` says that a caller owes.
//! `tests/library_links` builds and runs this.

use std::ffi::c_void;

/// `struct cutterash_reply`.
#[repr(C)]
#[derive(Clone, Copy, Debug, PartialEq, Eq)]
pub struct Reply {
    pub status: u32,
    pub number: u32,
    pub count: u32,
    pub first: u64,
    pub second: u64,
    pub length: usize,
}

/// `struct cutterash_filter`.
#[repr(C)]
struct Handle {
    code: *mut c_void,
    is_open: bool,
}

extern "C" {
    fn cutterash_compile(text: *const u8, text_length: usize, room: *mut u8, room_length: usize) -> Reply;
    fn cutterash_load(filter: *mut Handle, file: *const u8, file_length: usize) -> Reply;
    fn cutterash_run(
        filter: *mut Handle,
        object: *const u8,
        object_length: usize,
        room: *mut u8,
        room_length: usize,
    ) -> Reply;
    fn cutterash_close(filter: *mut Handle);
}

const DONE: u32 = 0;
const NO_ANSWER: u32 = 1;
const NO_ROOM: u32 = 4;

/// The bytes that a call answers: it is called again with more room where there was too little.
fn bytes(mut call: impl FnMut(&mut [u8]) -> Reply) -> Result<Option<Vec<u8>>, Reply> {
    let mut room = vec![0; 64];
    loop {
        let reply = call(&mut room);
        match reply.status {
            DONE => {
                room.truncate(reply.length);
                return Ok(Some(room));
            }
            NO_ANSWER => return Ok(None),
            NO_ROOM => room.resize(reply.length, 0),
            _ => return Err(reply),
        }
    }
}

/// The code file of a specification.
pub fn compile(text: &str) -> Result<Vec<u8>, Reply> {
    // SAFETY: the pointers and lengths are those of a `&str` and of a `&mut [u8]`.
    let file = bytes(|room| unsafe { cutterash_compile(text.as_ptr(), text.len(), room.as_mut_ptr(), room.len()) })?;
    Ok(file.unwrap_or_default())
}

/// Code that was loaded. The pointer in it keeps it on its thread.
pub struct Filter {
    handle: Handle,
    pub budget: u64,
    pub depth: u64,
}

impl Filter {
    /// Loads a code file, of whomever it came.
    pub fn load(file: &[u8]) -> Result<Filter, Reply> {
        let mut handle = Handle { code: std::ptr::null_mut(), is_open: false };
        // SAFETY: the handle is zeroed, and the pointer and the length are those of a `&[u8]`.
        let reply = unsafe { cutterash_load(&mut handle, file.as_ptr(), file.len()) };
        match reply.status {
            DONE => Ok(Filter { handle, budget: reply.first, depth: reply.second }),
            _ => Err(reply),
        }
    }

    /// The answer on an object, if there is one.
    pub fn run(&mut self, object: &str) -> Result<Option<Vec<u8>>, Reply> {
        let handle = &mut self.handle;
        // SAFETY: only `load` makes a handle, nothing else changes one or copies it, and the pointers and lengths are
        // those of a `&str` and of a `&mut [u8]`.
        bytes(|room| unsafe {
            cutterash_run(handle, object.as_ptr(), object.len(), room.as_mut_ptr(), room.len())
        })
    }
}

impl Drop for Filter {
    fn drop(&mut self) {
        // SAFETY: as in `run`.
        unsafe { cutterash_close(&mut self.handle) }
    }
}

fn main() -> Result<(), Reply> {
    let file = compile("[{{'_','$1','$2'},[{'>','$2',1904}],['$1']}].")?;
    let mut filter = Filter::load(&file)?;
    println!("at most {} instructions an object, {} places", filter.budget, filter.depth);
    for object in ["{1,ada,1815}.", "{2,alan,1912}.", "{3,alonzo,1903}.", "{4,grace,1906}."] {
        match filter.run(object)? {
            Some(answer) => println!("{object} {}", String::from_utf8_lossy(&answer)),
            None => println!("{object} -"),
        }
    }
    Ok(())
}
