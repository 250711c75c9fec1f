//! Encoders of other libraries: ICU and the C library's iconv.
//!
//! They have other names for the encodings, and other bytes for some characters.

use crate::loaded::Loaded;
use crate::pieces::{end_of_piece, Unit};
use std::ffi::{c_char, c_int, c_void, CStr, CString};
use std::ptr::null_mut;

/// An encoder of another library.
pub trait Peer {
    /// Encodes a text in UTF-8 `rounds` times, in pieces of `piece` code units (0: in one).
    ///
    /// Returns the number of bytes written the last time, or 0 if it fails.
    fn from_utf8(&self, src: &[u8], dst: &mut [u8], piece: usize, rounds: usize) -> usize;

    /// Encodes a text in UTF-16 likewise.
    fn from_utf16(&self, src: &[u16], dst: &mut [u8], piece: usize, rounds: usize) -> usize;
}

/// The names that ICU and iconv have for an encoding of the Standard: those of their tables nearest to the Standard's.
const NAMES: &[(&str, &str, &str)] = &[
    ("EUC-KR", "windows-949-2000", "CP949"),
    ("gb18030", "gb18030", "GB18030"),
    ("GBK", "windows-936-2000", "GBK"),
    ("Big5", "windows-950-2000", "BIG5"),
    ("Shift_JIS", "ibm-943_P15A-2003", "CP932"),
    ("EUC-JP", "EUC-JP", "EUC-JP"),
    ("ISO-2022-JP", "ISO-2022-JP", "ISO-2022-JP"),
    ("windows-1251", "windows-1251", "CP1251"),
    ("windows-1252", "windows-1252", "CP1252"),
];

fn names(encoding: &str) -> Option<(&'static str, &'static str)> {
    NAMES.iter().find(|(name, _, _)| *name == encoding).map(|(_, icu, iconv)| (*icu, *iconv))
}

/// Returns the index in a slice of the item that a pointer points to.
fn place<T>(slice: &[T], pointer: *const T) -> usize {
    (pointer as usize - slice.as_ptr() as usize) / size_of::<T>()
}

/// Encodes the pieces of a text by a function, and stops if the function fails.
///
/// The function takes the position in the text, the end of the piece, the position in the output, and whether the piece
/// is the last. It returns the new position in the output.
fn in_pieces<U: Unit>(src: &[U], piece: usize, mut encode: impl FnMut(usize, usize, usize, bool) -> Option<usize>) -> usize {
    let (mut read, mut written) = (0, 0);
    loop {
        let end = end_of_piece(src, read, piece);
        let last = end == src.len();
        let Some(after) = encode(read, end, written, last) else { return 0 };
        written = after;
        if last {
            return written;
        }
        read = end;
    }
}

// ---- ICU

/// The versions of ICU to look for, the newest first. The names of their functions end in the version.
const ICU_VERSIONS: std::ops::Range<u32> = 60..100;

type Open = unsafe extern "C" fn(*const c_char, *mut c_int) -> *mut c_void;
type Reset = unsafe extern "C" fn(*mut c_void);
type FromUnicode = unsafe extern "C" fn(*mut c_void, *mut *mut u8, *const u8, *mut *const u16, *const u16, *mut i32, i8, *mut c_int);
type ConvertEx = unsafe extern "C" fn(
    *mut c_void,
    *mut c_void,
    *mut *mut u8,
    *const u8,
    *mut *const u8,
    *const u8,
    *mut u16,
    *mut *mut u16,
    *mut *mut u16,
    *const u16,
    i8,
    i8,
    *mut c_int,
);

/// The functions of ICU.
#[derive(Clone, Copy)]
struct IcuFunctions {
    open: Open,
    reset: Reset,
    from_unicode: FromUnicode,
    convert_ex: ConvertEx,
}

impl IcuFunctions {
    /// Loads the functions of the newest version that is installed.
    fn load() -> Option<IcuFunctions> {
        ICU_VERSIONS.rev().find_map(|version| {
            let library = Loaded::open(&format!("libicuuc.so.{version}"))?;
            let find = |name: &str| library.find(&format!("{name}_{version}"));
            Some(unsafe {
                IcuFunctions {
                    open: std::mem::transmute::<*mut c_void, Open>(find("ucnv_open")?),
                    reset: std::mem::transmute::<*mut c_void, Reset>(find("ucnv_reset")?),
                    from_unicode: std::mem::transmute::<*mut c_void, FromUnicode>(find("ucnv_fromUnicode")?),
                    convert_ex: std::mem::transmute::<*mut c_void, ConvertEx>(find("ucnv_convertEx")?),
                }
            })
        })
    }

    fn converter(&self, name: &str) -> Option<*mut c_void> {
        let (name, mut error) = (CString::new(name).ok()?, 0);
        let converter = unsafe { (self.open)(name.as_ptr(), &mut error) };
        (!converter.is_null() && error <= 0).then_some(converter)
    }
}

/// A converter of ICU, and one of UTF-8. They are never closed, because there are few.
struct Icu {
    functions: IcuFunctions,
    utf8: *mut c_void,
    converter: *mut c_void,
}

/// Returns the encoder of ICU, if it is installed and has the encoding.
pub fn icu(encoding: &str) -> Option<Box<dyn Peer>> {
    let functions = IcuFunctions::load()?;
    let (name, _) = names(encoding)?;
    Some(Box::new(Icu { functions, utf8: functions.converter("UTF-8")?, converter: functions.converter(name)? }))
}

/// Checks whether ICU is installed.
pub fn has_icu() -> bool {
    IcuFunctions::load().is_some()
}

impl Peer for Icu {
    fn from_utf8(&self, src: &[u8], dst: &mut [u8], piece: usize, rounds: usize) -> usize {
        let mut pivot = [0u16; 1024];
        let pivot_end = unsafe { pivot.as_ptr().add(pivot.len()) };
        let pivot = pivot.as_mut_ptr();
        let mut written = 0;
        for _ in 0..rounds {
            let (mut pivot_read, mut pivot_written) = (pivot, pivot);
            written = in_pieces(src, piece, |read, end, written, last| unsafe {
                let (mut from, mut to, mut error) = (src.as_ptr().add(read), dst.as_mut_ptr().add(written), 0);
                (self.functions.convert_ex)(
                    self.converter,
                    self.utf8,
                    &mut to,
                    dst.as_ptr().add(dst.len()),
                    &mut from,
                    src.as_ptr().add(end),
                    pivot,
                    &mut pivot_read,
                    &mut pivot_written,
                    pivot_end,
                    i8::from(read == 0),
                    i8::from(last),
                    &mut error,
                );
                (error <= 0).then(|| place(dst, to))
            });
        }
        written
    }

    fn from_utf16(&self, src: &[u16], dst: &mut [u8], piece: usize, rounds: usize) -> usize {
        let mut written = 0;
        for _ in 0..rounds {
            unsafe { (self.functions.reset)(self.converter) };
            written = in_pieces(src, piece, |read, end, written, last| unsafe {
                let (mut from, mut to, mut error) = (src.as_ptr().add(read), dst.as_mut_ptr().add(written), 0);
                (self.functions.from_unicode)(
                    self.converter,
                    &mut to,
                    dst.as_ptr().add(dst.len()),
                    &mut from,
                    src.as_ptr().add(end),
                    null_mut(),
                    i8::from(last),
                    &mut error,
                );
                (error <= 0).then(|| place(dst, to))
            });
        }
        written
    }
}

// ---- iconv

extern "C" {
    fn iconv_open(to: *const c_char, from: *const c_char) -> *mut c_void;
    fn iconv(descriptor: *mut c_void, src: *mut *const u8, src_left: *mut usize, dst: *mut *mut u8, dst_left: *mut usize) -> usize;
}

/// Two conversions of iconv. They are never closed, because there are few.
struct Iconv {
    utf8: *mut c_void,
    utf16: *mut c_void,
}

/// Returns the encoder of iconv, if it has the encoding.
pub fn glibc(encoding: &str) -> Option<Box<dyn Peer>> {
    let (_, name) = names(encoding)?;
    let name = CString::new(name).ok()?;
    let open = |from: &CStr| {
        let descriptor = unsafe { iconv_open(name.as_ptr(), from.as_ptr()) };
        (descriptor as isize != -1).then_some(descriptor)
    };
    Some(Box::new(Iconv { utf8: open(c"UTF-8")?, utf16: open(c"UTF-16LE")? }))
}

impl Iconv {
    fn convert<U: Unit>(descriptor: *mut c_void, src: &[U], dst: &mut [u8], piece: usize, rounds: usize) -> usize {
        let mut written = 0;
        for _ in 0..rounds {
            unsafe { iconv(descriptor, null_mut(), null_mut(), null_mut(), null_mut()) };
            written = in_pieces(src, piece, |read, end, written, last| unsafe {
                let mut from = src.as_ptr().add(read).cast::<u8>();
                let mut left = (end - read) * size_of::<U>();
                let (mut to, mut free) = (dst.as_mut_ptr().add(written), dst.len() - written);
                let mut answer = iconv(descriptor, &mut from, &mut left, &mut to, &mut free);
                if last {
                    answer |= iconv(descriptor, null_mut(), null_mut(), &mut to, &mut free);
                }
                (answer != usize::MAX && left == 0).then(|| place(dst, to))
            });
        }
        written
    }
}

impl Peer for Iconv {
    fn from_utf8(&self, src: &[u8], dst: &mut [u8], piece: usize, rounds: usize) -> usize {
        Iconv::convert(self.utf8, src, dst, piece, rounds)
    }

    fn from_utf16(&self, src: &[u16], dst: &mut [u8], piece: usize, rounds: usize) -> usize {
        Iconv::convert(self.utf16, src, dst, piece, rounds)
    }
}
