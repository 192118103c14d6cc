//! liblouis beside the library, on prose, where it is installed. By its rules print has other cells, so that they are not asserted; only
//! that it takes all of the print. It is looked for when the bench runs: nothing of it is needed to build.
use crate::cases::{of_prose, Data};
use crate::timing::{Times, ROUNDS};
use omdurgash::{transcribe, LONGEST_ROW};
use std::ffi::{c_char, c_int, c_ushort, c_void, CStr};
use std::hint::black_box;
use std::mem::transmute;
use std::ptr::null_mut;

const NAME: &CStr = c"liblouis.so.20";
const TABLE: &CStr = c"es-g1.ctb";

/// dlopen's RTLD_NOW.
const NOW: c_int = 2;

/// liblouis' dotsIO and ucBrl: cells as Unicode's braille characters.
const BRAILLE: c_int = 4 | 64;

/// lou_translateString, whose characters have 16 bits or 32.
type Translate =
    unsafe extern "C" fn(*const c_char, *const c_void, *mut c_int, *mut c_void, *mut c_int, *mut c_ushort, *mut c_char, c_int) -> c_int;

extern "C" {
    fn dlopen(file: *const c_char, flags: c_int) -> *mut c_void;
    fn dlsym(library: *mut c_void, name: *const c_char) -> *mut c_void;
}

/// Times the prose and prints the table, or says that there is no liblouis.
pub fn run() {
    // SAFETY: the names are C strings, and a function that is there is that of liblouis.h.
    let (version, size, translate) = unsafe {
        let library = dlopen(NAME.as_ptr(), NOW);
        let found = [c"lou_version", c"lou_charSize", c"lou_translateString"].map(|name| match library.is_null() {
            true => null_mut(),
            false => dlsym(library, name.as_ptr()),
        });
        if found.contains(&null_mut()) {
            return println!("liblouis is not installed: not timed");
        }
        let version = transmute::<*mut c_void, unsafe extern "C" fn() -> *const c_char>(found[0]);
        let size = transmute::<*mut c_void, unsafe extern "C" fn() -> c_int>(found[1]);
        (CStr::from_ptr(version()).to_string_lossy(), size(), transmute::<*mut c_void, Translate>(found[2]))
    };
    println!("liblouis {version}, table {}, {ROUNDS} rounds: other cells, which are not asserted", TABLE.to_string_lossy());
    println!("{:<36}{:>16}{:>17}{:>8}", "print, in ns a code point", "library", "liblouis", "ratio");
    of_prose().iter().for_each(|data| match size {
        2 => time::<u16>(translate, data),
        _ => time::<u32>(translate, data),
    });
}

/// Times the texts with characters of this size. All code points of the prose have 16 bits.
fn time<W: Copy + From<u16>>(translate: Translate, data: &Data) {
    let (row, wide_row) = (&mut vec![0; LONGEST_ROW][..], &mut vec![W::from(0); LONGEST_ROW][..]);
    let wide: Vec<Vec<W>> = data.texts.iter().map(|text| text.print.iter().map(|&point| W::from(point as u16)).collect()).collect();
    let mut by_liblouis = |print: &Vec<W>| {
        let (mut taken, mut written) = (print.len() as c_int, LONGEST_ROW as c_int);
        let (from, to) = (black_box(print).as_ptr().cast(), black_box(wide_row.as_mut_ptr()).cast());
        // SAFETY: `print` has so many characters, and there is room for as many as `written` says; null asks for nothing more.
        let done = unsafe { translate(TABLE.as_ptr(), from, &mut taken, to, &mut written, null_mut(), null_mut(), BRAILLE) };
        done == 1 && taken as usize == print.len()
    };
    if !wide.iter().all(&mut by_liblouis) {
        return println!("{:<36}liblouis refuses: not timed", data.title);
    }
    let mut run = |rival, passes| match rival {
        0 => (0..passes).all(|_| data.texts.iter().all(|text| transcribe(black_box(&text.print), black_box(row)) == Ok(text.cells.len()))),
        _ => (0..passes).all(|_| wide.iter().all(&mut by_liblouis)),
    };
    let mut times = Times::new(2, |rival, passes| assert!(run(rival, passes), "{}: refused", data.title));
    times.visit(&mut run, |_, accepted| assert!(accepted, "{}: refused", data.title));
    let points: usize = wide.iter().map(Vec::len).sum();
    let [library, liblouis] = [0, 1].map(|rival| times.median(rival) / points as f64);
    println!("{:<36}{library:>16.2}{liblouis:>17.2}{:>8.2}", data.title, times.ratio(0, 1));
}
