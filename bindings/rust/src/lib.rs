//! Translators from attribute grammars, by the C library `libaggen.a`.
//!
//! ```
//! let grammar = b"start S; symbol S syn out; S = NUMBER { $0.out = text(number($1.lex) + 1); }";
//! let mut translator = aggen::Translator::build(grammar)?;
//! assert_eq!(translator.translate(b"41")?, b"42");
//! # Ok::<(), aggen::Refusal>(())
//! ```

use std::ffi::{c_char, c_int, c_void, CStr};
use std::{fmt, ptr};

/// The capacity of a message's buffer; a longer message gets one of its own.
const MESSAGE: usize = 1024;

#[repr(C)]
struct RawHandle {
    translator: *mut c_void,
}

#[repr(C)]
#[derive(Clone, Copy)]
struct RawRefusal {
    letter: u8,
    index: u8,
    offset: u64,
    line: usize,
    column: usize,
    message_length: usize,
}

type Call = unsafe extern "C" fn(
    *mut RawHandle, *const c_void, usize, *mut c_void, usize, *mut usize, *mut c_char, usize, *mut RawRefusal,
) -> c_int;

#[link(name = "aggen", kind = "static")]
extern "C" {
    fn aggen_build(
        grammar: *const c_void, length: usize, handle: *mut RawHandle, message: *mut c_char, capacity: usize, refusal: *mut RawRefusal,
    ) -> c_int;
    fn aggen_translate(
        handle: *mut RawHandle, input: *const c_void, length: usize, out: *mut c_void, capacity: usize, needed: *mut usize,
        message: *mut c_char, room: usize, refusal: *mut RawRefusal,
    ) -> c_int;
    fn aggen_evaluate(
        handle: *mut RawHandle, input: *const c_void, length: usize, out: *mut c_void, capacity: usize, needed: *mut usize,
        message: *mut c_char, room: usize, refusal: *mut RawRefusal,
    ) -> c_int;
    fn aggen_parse(
        handle: *mut RawHandle, input: *const c_void, length: usize, out: *mut c_void, capacity: usize, needed: *mut usize,
        message: *mut c_char, room: usize, refusal: *mut RawRefusal,
    ) -> c_int;
    fn aggen_plan(
        handle: *mut RawHandle, out: *mut c_void, capacity: usize, needed: *mut usize, message: *mut c_char, room: usize,
        refusal: *mut RawRefusal,
    ) -> c_int;
    fn aggen_version() -> *const c_char;
    fn aggen_free(handle: *mut RawHandle);
}

/// `aggen_plan` with the signature of the other calls. The input is not used.
unsafe extern "C" fn plan(
    handle: *mut RawHandle, _: *const c_void, _: usize, out: *mut c_void, capacity: usize, needed: *mut usize, message: *mut c_char,
    room: usize, refusal: *mut RawRefusal,
) -> c_int {
    aggen_plan(handle, out, capacity, needed, message, room, refusal)
}

/// Why a call failed.
#[derive(Clone, Debug, PartialEq, Eq)]
pub struct Refusal {
    /// The status, as in `aggen.h`.
    pub status: i32,
    /// The number, as `N8`.
    pub number: Option<String>,
    /// The offset in the input of the call, in bytes from 0.
    pub offset: Option<u64>,
    /// The line and the column, from 1.
    pub place: Option<(usize, usize)>,
    /// One line, which begins with the number.
    pub message: String,
}

impl fmt::Display for Refusal {
    fn fmt(&self, f: &mut fmt::Formatter<'_>) -> fmt::Result {
        f.write_str(&self.message)
    }
}

impl std::error::Error for Refusal {}

/// The translator of a grammar's text.
pub struct Translator {
    handle: RawHandle,
}

// SAFETY: a handle may be used by one thread after another, and `&mut self` keeps out a second one
unsafe impl Send for Translator {}

impl Translator {
    /// Returns the translator of a grammar's text.
    pub fn build(grammar: &[u8]) -> Result<Translator, Refusal> {
        let mut made = Translator { handle: RawHandle { translator: ptr::null_mut() } };
        let handle: *mut RawHandle = &mut made.handle;
        checked(|message, room, refusal| unsafe {
            aggen_build(grammar.as_ptr().cast(), grammar.len(), handle, message, room, refusal)
        })?;
        Ok(made)
    }

    /// Returns the translation of a sentence.
    pub fn translate(&mut self, sentence: &[u8]) -> Result<Vec<u8>, Refusal> {
        self.result(aggen_translate, sentence)
    }

    /// Returns the translation of the tree in a tree file of pass 0, as `parse` returns one.
    pub fn evaluate(&mut self, file: &[u8]) -> Result<Vec<u8>, Refusal> {
        self.result(aggen_evaluate, file)
    }

    /// Returns the tree file of a sentence.
    pub fn parse(&mut self, sentence: &[u8]) -> Result<Vec<u8>, Refusal> {
        self.result(aggen_parse, sentence)
    }

    /// Returns the passes, a line for each.
    pub fn plan(&mut self) -> Result<Vec<u8>, Refusal> {
        self.result(plan, &[])
    }

    fn result(&mut self, call: Call, input: &[u8]) -> Result<Vec<u8>, Refusal> {
        let mut out = vec![0; 4096];
        loop {
            let mut length = 0;
            checked(|message, room, refusal| unsafe {
                call(
                    &mut self.handle, input.as_ptr().cast(), input.len(), out.as_mut_ptr().cast(), out.len(), &mut length,
                    message, room, refusal,
                )
            })?;
            if length <= out.len() {
                out.truncate(length);
                return Ok(out);
            }
            out.resize(length, 0);
        }
    }
}

impl Drop for Translator {
    fn drop(&mut self) {
        unsafe { aggen_free(&mut self.handle) }
    }
}

/// Returns the version of the library.
pub fn version() -> &'static str {
    unsafe { CStr::from_ptr(aggen_version()) }.to_str().unwrap_or_default()
}

/// Makes a call with a buffer for its message, and returns its refusal. Makes the call again with a larger buffer if needed.
fn checked(mut call: impl FnMut(*mut c_char, usize, *mut RawRefusal) -> c_int) -> Result<(), Refusal> {
    let mut found = RawRefusal { letter: 0, index: 0, offset: u64::MAX, line: 0, column: 0, message_length: 0 };
    let mut message = vec![0u8; MESSAGE];
    let mut status = call(message.as_mut_ptr().cast(), message.len(), &mut found);
    if found.message_length > message.len() {
        message.resize(found.message_length, 0);
        status = call(message.as_mut_ptr().cast(), message.len(), &mut found);
    }
    if status == 0 {
        return Ok(());
    }
    message.truncate(found.message_length);
    let number = (found.letter != 0).then(|| format!("{}{}", char::from(found.letter), found.index));
    let place = (found.line != 0).then_some((found.line, found.column));
    let offset = (found.offset != u64::MAX).then_some(found.offset);
    let message = String::from_utf8_lossy(&message).into_owned();
    Err(Refusal { status, number, offset, place, message })
}
