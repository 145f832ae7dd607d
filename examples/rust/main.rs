//! Imports a sample through the static library, as examples/c/import.c does, and prints the same, but for what would be read at NULL. It is given the names of an export and of a layout.
use std::env;
use std::fs;
use std::io;
use std::io::Write;
use std::process::ExitCode;
use std::ptr;

/// The calls, as include/neskvaru.h declares them.
mod neskvaru {
    #[repr(C)]
    pub struct Answer {
        pub how: u32,
        pub row: u32,
    }

    #[repr(C)]
    pub struct Refused {
        pub side: u32,
        pub row: u32,
    }

    unsafe extern "C" {
        fn neskvaru_check_layout_bytes(family: *const u8, family_length: usize, layout: *const u8, layout_length: usize) -> u8;
        fn neskvaru_trace_bytes(
            rule: *const u8, rule_length: usize, family: *const u8, family_length: usize, layout: *const u8, layout_length: usize,
            file: *const u8, file_length: usize, out: *mut u8, out_length: usize, length: &mut usize,
        ) -> u8;
        fn neskvaru_print_bytes(
            rule: *const u8, rule_length: usize, family: *const u8, family_length: usize, layout: *const u8, layout_length: usize,
            file: *const u8, file_length: usize, out: *mut u8, out_length: usize, length: &mut usize,
        ) -> u8;
        fn neskvaru_match_bytes(
            rule: *const u8, rule_length: usize, family: *const u8, family_length: usize, layout: *const u8, layout_length: usize,
            first: *const u8, first_length: usize, resent: *const u8, resent_length: usize, answer: &mut Answer, refused: &mut Refused,
        ) -> u8;
    }

    pub const BUFFER_TOO_SHORT: u8 = 15;

    /// A buffer of C's: where it begins, which may be null, and how long it is said to be.
    #[derive(Clone, Copy)]
    pub struct Buffer {
        pub at: *mut u8,
        pub length: usize,
    }

    impl Buffer {
        pub fn of(bytes: &mut [u8]) -> Buffer {
            Buffer { at: bytes.as_mut_ptr(), length: bytes.len() }
        }

        /// The place for a call, which is not null; none for a null whose length is not 0.
        fn place(self, none: &mut u8) -> Option<*mut u8> {
            match (self.at.is_null(), self.length) {
                (false, _) => Some(self.at),
                (true, 0) => Some(none),
                (true, _) => None,
            }
        }
    }

    pub fn check_layout(family: &str, layout: &[u8]) -> u8 {
        unsafe { neskvaru_check_layout_bytes(family.as_ptr(), family.len(), layout.as_ptr(), layout.len()) }
    }

    /// # Safety
    /// The buffer is valid for its length, and no other argument overlaps it.
    pub unsafe fn trace(rule: &str, family: &str, layout: &[u8], file: &[u8], out: Buffer, length: Option<&mut usize>) -> u8 {
        let mut none = 0;
        let (Some(at), Some(length)) = (out.place(&mut none), length) else { return BUFFER_TOO_SHORT };
        unsafe {
            neskvaru_trace_bytes(
                rule.as_ptr(), rule.len(), family.as_ptr(), family.len(), layout.as_ptr(), layout.len(),
                file.as_ptr(), file.len(), at, out.length, length,
            )
        }
    }

    /// # Safety
    /// The buffer is valid for its length, and no other argument overlaps it.
    pub unsafe fn print(rule: &str, family: &str, layout: &[u8], file: &[u8], out: Buffer, length: Option<&mut usize>) -> u8 {
        let mut none = 0;
        let (Some(at), Some(length)) = (out.place(&mut none), length) else { return BUFFER_TOO_SHORT };
        unsafe {
            neskvaru_print_bytes(
                rule.as_ptr(), rule.len(), family.as_ptr(), family.len(), layout.as_ptr(), layout.len(),
                file.as_ptr(), file.len(), at, out.length, length,
            )
        }
    }

    pub fn match_resent(
        rule: &str, family: &str, layout: &[u8], first: &[u8], resent: &[u8], answer: Option<&mut Answer>, refused: Option<&mut Refused>,
    ) -> u8 {
        let (Some(answer), Some(refused)) = (answer, refused) else { return BUFFER_TOO_SHORT };
        unsafe {
            neskvaru_match_bytes(
                rule.as_ptr(), rule.len(), family.as_ptr(), family.len(), layout.as_ptr(), layout.len(),
                first.as_ptr(), first.len(), resent.as_ptr(), resent.len(), answer, refused,
            )
        }
    }
}

use neskvaru::{Answer, Buffer, Refused};

const NULL: Buffer = Buffer { at: ptr::null_mut(), length: 0 };

/// What is done with the whole sample.
fn import(layout: &[u8], file: &[u8]) -> io::Result<()> {
    let mut out = vec![0; 65536];
    let mut length = 0;
    println!("layout: status {}", neskvaru::check_layout("ascii", layout));
    let status = unsafe { neskvaru::trace("newline", "ascii", layout, file, Buffer::of(&mut out), Some(&mut length)) };
    println!("trace: status {status}, length {length}");
    io::stdout().write_all(&out[..length])?;
    let status = unsafe { neskvaru::print("newline", "ascii", layout, file, Buffer::of(&mut out), Some(&mut length)) };
    let same = if &out[..length] == file { "the file" } else { "another file" };
    println!("print: status {status}, length {length}, {same}");
    Ok(())
}

/// Matches the sample with a file that was sent again; a place for what is answered may be missing.
fn match_at(what: &str, layout: &[u8], file: &[u8], resent: &[u8], to: bool, at: bool) {
    let mut answer = Answer { how: 99, row: 99 };
    let mut refused = Refused { side: 99, row: 99 };
    let places = (to.then_some(&mut answer), at.then_some(&mut refused));
    let status = neskvaru::match_resent("newline", "ascii", layout, file, resent, places.0, places.1);
    let (Answer { how, row }, Refused { side, row: refused_row }) = (answer, refused);
    println!("match, {what}: status {status}, how {how}, row {row}; refused: side {side}, row {refused_row}");
}

fn match_one(what: &str, layout: &[u8], file: &[u8], resent: &[u8]) {
    match_at(what, layout, file, resent, true, true);
}

fn match_all(layout: &[u8], file: &[u8]) {
    let rows_before = file.iter().rposition(|byte| *byte == b'\n').map_or(0, |at| at + 1);
    match_one("the same file", layout, file, file);
    match_one("without its last byte", layout, file, &file[..file.len() - 1]);
    match_one("without its last row", layout, file, &file[..rows_before]);
    match_one("with a newline at its end", layout, file, &[file, b"\n"].concat());
    match_one("no bytes", layout, file, b"");
    match_one("a row too long", layout, file, &[b'1'; 5000]);
    match_at("no place for the answer", layout, file, file, false, true);
    match_at("no place for a refusal", layout, file, file, true, false);
}

/// Tells a refused call, and whether buffer and length are as they were.
fn refused(what: &str, out: &mut [u8], call: impl FnOnce(Buffer, &mut usize) -> u8) {
    let mut length = 77;
    let status = call(Buffer::of(out), &mut length);
    let touched = out.iter().filter(|byte| **byte != 170).count();
    println!("refused, {what}: status {status}, length {length}, {touched} bytes changed");
}

fn refuse(layout: &[u8], file: &[u8]) {
    let out = &mut [170; 65536][..];
    let trace = |rule: &str, family: &str, layout: &[u8], out: Buffer, length: &mut usize| unsafe { neskvaru::trace(rule, family, layout, file, out, Some(length)) };
    let print = |file: &[u8], at: *mut u8, room: usize, length: &mut usize| unsafe { neskvaru::print("newline", "ascii", layout, file, Buffer { at, length: room }, Some(length)) };
    refused("a width of 0", out, |out, length| trace("fixed:0", "ascii", layout, out, length));
    refused("no words", out, |out, length| trace("", "ascii", layout, out, length));
    refused("no family", out, |out, length| trace("newline", "ebcdic", layout, out, length));
    refused("an empty layout", out, |out, length| trace("newline", "ascii", b"", out, length));
    refused("a kind unknown", out, |out, length| trace("newline", "binary", layout, out, length));
    refused("a short buffer", out, |out, length| trace("newline", "ascii", layout, Buffer { length: 10, ..out }, length));
    refused("a buffer a byte short", out, |out, length| print(file, out.at, file.len() - 1, length));
    refused("no buffer", out, |_, length| print(file, NULL.at, 0, length));
    refused("a null buffer", out, |_, length| print(file, NULL.at, 10, length));
    refused("no place for the length of a trace", out, |out, _| unsafe { neskvaru::trace("newline", "ascii", layout, file, out, None) });
    refused("no place for the length of a print", out, |out, _| unsafe { neskvaru::print("newline", "ascii", layout, file, out, None) });
    let mut length = 77;
    let status = print(b"", NULL.at, 0, &mut length);
    println!("a null file of no bytes: status {status}, length {length}");
}

/// Of several refusals the first in order is told.
fn orders(layout: &[u8]) {
    let long_file = &vec![0; 16_777_217][..];
    let out = &mut [170; 65536][..];
    let trace = |rule: &str, family: &str, file: &[u8], out: Buffer, length: &mut usize| unsafe { neskvaru::trace(rule, family, b"", file, Buffer { length: 0, ..out }, Some(length)) };
    refused("no rule, no family", out, |out, length| trace("fixed", "ebcdic", long_file, out, length));
    refused("no family, a file too long", out, |out, length| trace("fixed:1", "ebcdic", long_file, out, length));
    refused("a file too long, an empty layout", out, |out, length| trace("fixed:1", "ascii", long_file, out, length));
    refused("an empty layout, no room", out, |out, length| trace("fixed:1", "ascii", &long_file[..5000], out, length));
    refused("a row too long, no room", out, |out, length| unsafe { neskvaru::print("newline", "ascii", layout, &long_file[..5000], Buffer { length: 0, ..out }, Some(length)) });
    refused("no place for the length, no rule", out, |out, _| unsafe { neskvaru::trace("fixed:0", "ebcdic", b"", long_file, Buffer { length: 0, ..out }, None) });
}

fn check_all(layout: &[u8]) {
    let check = |what: &str, family: &str, layout: &[u8]| println!("layout, {what}: status {}", neskvaru::check_layout(family, layout));
    check("no bytes", "ascii", b"");
    check("a byte short", "ascii", &layout[..layout.len() - 1]);
    check("a kind unknown", "binary", layout);
    check("no family, no bytes", "ebcdic", b"");
}

fn main() -> ExitCode {
    let words: Vec<String> = env::args().collect();
    let [_, file, layout] = &words[..] else {
        eprintln!("write: import EXPORT LAYOUT");
        return ExitCode::FAILURE;
    };
    let done = fs::read(file).and_then(|file| {
        let layout = fs::read(layout)?;
        import(&layout, &file)?;
        match_all(&layout, &file);
        refuse(&layout, &file);
        orders(&layout);
        check_all(&layout);
        Ok(())
    });
    match done {
        Ok(()) => ExitCode::SUCCESS,
        Err(error) => {
            eprintln!("{error}");
            ExitCode::FAILURE
        }
    }
}
