//! The functions of Lua 5.4 that are called, as lua.h and lauxlib.h declare
//! them.

use std::ffi::{c_char, c_int, c_void};

/// Lua's own; only pointers to it occur.
#[repr(C)]
pub struct LuaState {
    _opaque: [u8; 0],
}

pub const OK: c_int = 0;

/// Called with the pieces of a dumped function; 0 asks for more.
pub type Writer = extern "C" fn(*mut LuaState, *const c_void, usize, *mut c_void) -> c_int;

/// Goes on after a yield; none is ever given here.
type Continuation = extern "C" fn(*mut LuaState, c_int, isize) -> c_int;

extern "C" {
    pub fn luaL_newstate() -> *mut LuaState;
    pub fn lua_close(state: *mut LuaState);
    pub fn luaL_loadbufferx(
        state: *mut LuaState,
        bytes: *const c_char,
        length: usize,
        name: *const c_char,
        mode: *const c_char,
    ) -> c_int;
    pub fn lua_pcallk(
        state: *mut LuaState,
        arguments: c_int,
        results: c_int,
        handler: c_int,
        context: isize,
        continuation: Option<Continuation>,
    ) -> c_int;
    pub fn lua_dump(state: *mut LuaState, writer: Writer, data: *mut c_void, strip: c_int)
        -> c_int;
    pub fn lua_createtable(state: *mut LuaState, array: c_int, records: c_int);
    pub fn lua_rawseti(state: *mut LuaState, index: c_int, key: i64);
    pub fn lua_pushinteger(state: *mut LuaState, number: i64);
    pub fn lua_pushvalue(state: *mut LuaState, index: c_int);
    pub fn lua_tointegerx(state: *mut LuaState, index: c_int, is_number: *mut c_int) -> i64;
    pub fn lua_settop(state: *mut LuaState, index: c_int);
}
