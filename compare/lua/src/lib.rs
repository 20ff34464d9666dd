//! Lua 5.4 as a host embeds it that has samples and wants one integer: load a
//! program, lend the samples as a table, run it, take the integer out. No
//! standard library is opened; a sum needs none.
//!
//! All unsafe code of the benchmark is in this crate. Lua raises an error by a
//! long jump, but only inside a protected call, where no Rust frame lies
//! between; outside of one it ends the process, which happens only where
//! memory runs out.
#![deny(unsafe_op_in_unsafe_fn)]

mod foreign;

use foreign::LuaState;
use std::ffi::{c_char, c_int, c_void, CStr};
use std::ptr::NonNull;

/// What Lua can load. Bytecode comes from Lua itself only: Lua doesn't check
/// it, so other bytes could do anything.
pub struct Program {
    bytes: Vec<u8>,
    mode: &'static CStr,
}

impl Program {
    pub fn text(text: &str) -> Program {
        Program {
            bytes: text.as_bytes().to_vec(),
            mode: c"t",
        }
    }

    /// The text compiled, as `string.dump` gives it, without names and lines;
    /// None if it isn't a program.
    pub fn bytecode(text: &str) -> Option<Program> {
        let mut state = State::new()?;
        if !state.load(&Program::text(text)) {
            return None;
        }
        let mut bytes: Vec<u8> = Vec::new();
        let data: *mut Vec<u8> = &mut bytes;
        // SAFETY: the function just loaded is on top of the stack, and `data`
        // points to a vector that nothing else uses during the call.
        let done = unsafe { foreign::lua_dump(state.raw(), append, data.cast(), 1) };
        (done == foreign::OK).then_some(Program { bytes, mode: c"b" })
    }
}

/// Takes the next piece of a dumped function.
extern "C" fn append(
    _state: *mut LuaState,
    piece: *const c_void,
    length: usize,
    data: *mut c_void,
) -> c_int {
    if length > 0 {
        // SAFETY: Lua gives `length` readable bytes, and `data` is the vector
        // that `bytecode` lends for the call.
        unsafe {
            let bytes = std::slice::from_raw_parts(piece.cast::<u8>(), length);
            (*data.cast::<Vec<u8>>()).extend_from_slice(bytes);
        }
    }
    foreign::OK
}

/// A state of Lua, closed when it is dropped. Between two calls its stack is
/// empty.
pub struct State(NonNull<LuaState>);

impl State {
    /// None where there is no memory for one.
    pub fn new() -> Option<State> {
        // SAFETY: the function asks for nothing.
        NonNull::new(unsafe { foreign::luaL_newstate() }).map(State)
    }

    /// Loads a program and runs it over the samples; None if it fails or gives
    /// no integer.
    pub fn load_and_run(&mut self, program: &Program, samples: &[u32]) -> Option<i64> {
        let result = if self.load(program) {
            self.lend(samples);
            self.call()
        } else {
            None
        };
        self.keep_lowest(0);
        result
    }

    /// Loads a program once for many runs; None if it isn't one.
    pub fn keep(mut self, program: &Program, samples: &[u32]) -> Option<Kept> {
        if !self.load(program) {
            return None;
        }
        self.lend(samples);
        Some(Kept(self))
    }

    fn raw(&mut self) -> *mut LuaState {
        self.0.as_ptr()
    }

    /// Puts the program's function on the stack, or an error's message.
    fn load(&mut self, program: &Program) -> bool {
        let (bytes, mode) = (&program.bytes, program.mode);
        // SAFETY: pointer and length are of one slice, name and mode end with a
        // zero byte, and only bytecode from Lua itself has mode "b".
        let done = unsafe {
            foreign::luaL_loadbufferx(
                self.raw(),
                bytes.as_ptr().cast::<c_char>(),
                bytes.len(),
                c"=script".as_ptr(),
                mode.as_ptr(),
            )
        };
        done == foreign::OK
    }

    /// Puts a table of the samples on the stack.
    fn lend(&mut self, samples: &[u32]) {
        let state = self.raw();
        // SAFETY: a stack has room for twenty values more than a caller holds;
        // at most five are there. The table is right below the number.
        unsafe {
            foreign::lua_createtable(state, samples.len() as c_int, 0);
            for (key, sample) in (1..).zip(samples) {
                foreign::lua_pushinteger(state, i64::from(*sample));
                foreign::lua_rawseti(state, -2, key);
            }
        }
    }

    /// Calls the function below the topmost value with that value, and leaves
    /// its result, or an error's message, on the stack.
    fn call(&mut self) -> Option<i64> {
        let state = self.raw();
        let mut is_integer: c_int = 0;
        // SAFETY: function and argument are on top of the stack, and without a
        // handler or continuation there is nothing else to be called.
        let result = unsafe {
            if foreign::lua_pcallk(state, 1, 1, 0, 0, None) != foreign::OK {
                return None;
            }
            foreign::lua_tointegerx(state, -1, &mut is_integer)
        };
        (is_integer != 0).then_some(result)
    }

    fn keep_lowest(&mut self, values: c_int) {
        // SAFETY: so many values or more are on the stack.
        unsafe { foreign::lua_settop(self.raw(), values) }
    }

    /// Puts a copy of a value on the stack.
    fn copy(&mut self, index: c_int) {
        // SAFETY: only `Kept` asks, for one of the two values that it holds.
        unsafe { foreign::lua_pushvalue(self.raw(), index) }
    }
}

impl Drop for State {
    fn drop(&mut self) {
        // SAFETY: the state is open, and nothing uses it afterwards.
        unsafe { foreign::lua_close(self.raw()) }
    }
}

/// A state that holds a loaded program and a table of samples.
pub struct Kept(State);

impl Kept {
    const PROGRAM: c_int = 1;
    const SAMPLES: c_int = 2;

    /// Runs the program over a new table of these samples.
    pub fn run(&mut self, samples: &[u32]) -> Option<i64> {
        self.0.copy(Kept::PROGRAM);
        self.0.lend(samples);
        self.finish()
    }

    /// Runs the program over the table that was made when it was loaded.
    pub fn run_again(&mut self) -> Option<i64> {
        self.0.copy(Kept::PROGRAM);
        self.0.copy(Kept::SAMPLES);
        self.finish()
    }

    fn finish(&mut self) -> Option<i64> {
        let result = self.0.call();
        self.0.keep_lowest(Kept::SAMPLES);
        result
    }
}
