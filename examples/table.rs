//! A table in Rust, over the library for C: `Table` is safe, since it meets what `cutterash.h` says that a caller owes.
//! `tests/library_links` builds and runs this.

use std::ffi::c_void;

/// `struct cutterash_reply`.
#[repr(C)]
#[derive(Clone, Copy, Debug, PartialEq, Eq)]
pub struct Reply {
    pub status: u32,
    pub number: u32,
    pub count: u32,
    pub first: u64,
    pub second: u64,
    pub length: usize,
}

/// `struct cutterash_table`.
#[repr(C)]
struct Handle {
    engine: *mut c_void,
    is_open: bool,
}

extern "C" {
    fn cutterash_table_open(table: *mut Handle) -> Reply;
    fn cutterash_table_run(
        table: *mut Handle,
        text: *const u8,
        text_length: usize,
        room: *mut u8,
        room_length: usize,
    ) -> Reply;
    fn cutterash_table_replies(table: *mut Handle, room: *mut u8, room_length: usize) -> Reply;
    fn cutterash_table_close(table: *mut Handle);
}

const DONE: u32 = 0;
const REFUSED: u32 = 2;
const NO_ROOM: u32 = 4;

/// A table that is open. The pointer in it keeps it on its thread.
pub struct Table {
    handle: Handle,
}

impl Table {
    /// Opens a table, which no command was given yet.
    pub fn open() -> Result<Table, Reply> {
        let mut handle = Handle { engine: std::ptr::null_mut(), is_open: false };
        // SAFETY: the handle is zeroed.
        let reply = unsafe { cutterash_table_open(&mut handle) };
        match reply.status {
            DONE => Ok(Table { handle }),
            _ => Err(reply),
        }
    }

    /// Obeys the commands of a text, and answers the lines of their replies.
    pub fn run(&mut self, text: &str) -> Result<Vec<u8>, Reply> {
        let mut room = vec![0; 32];
        // SAFETY: only `open` makes a handle, nothing else changes one or copies it, and the pointers and lengths are
        // those of a `&str` and of a `&mut [u8]`.
        let mut reply = unsafe {
            cutterash_table_run(&mut self.handle, text.as_ptr(), text.len(), room.as_mut_ptr(), room.len())
        };
        if reply.status == NO_ROOM {
            room.resize(reply.length, 0);
            // SAFETY: as before.
            reply = unsafe { cutterash_table_replies(&mut self.handle, room.as_mut_ptr(), room.len()) };
        }
        match reply.status {
            DONE => {
                room.truncate(reply.length);
                Ok(room)
            }
            _ => Err(reply),
        }
    }
}

impl Drop for Table {
    fn drop(&mut self) {
        // SAFETY: as in `run`.
        unsafe { cutterash_table_close(&mut self.handle) }
    }
}

fn main() -> Result<(), Reply> {
    let mut table = Table::open()?;
    for text in [
        "{open,ordered_set,1,1,1}.",
        "{insert,0,{1,ada,1815}}. {insert,0,{2,alan,1912}}. {insert,0,{3,alonzo,1903}}. {insert,0,{4,grace,1906}}.",
        "{lookup,0,2}. {member,0,5}.",
        "{select,0,[{{'_','$1','$2'},[{'>','$2',1904}],['$1']}]}.",
        "{insert,0,{5,kurt,1906}}. {insert,0,{6",
        "{member,0,5}. {close}.",
    ] {
        match table.run(text) {
            Ok(lines) => print!("{}", String::from_utf8_lossy(&lines)),
            Err(reply) if reply.status == REFUSED => println!("refused: E{} at byte {}", reply.number, reply.first),
            Err(reply) => return Err(reply),
        }
    }
    Ok(())
}
