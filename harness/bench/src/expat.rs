//! expat's parser, found at run time so that no package has to be there for the build.
use std::ffi::{c_char, c_int, c_void, CStr};

extern "C" {
    fn dlopen(file: *const c_char, flags: c_int) -> *mut c_void;
    fn dlsym(library: *mut c_void, name: *const c_char) -> *mut c_void;
}

type Create = unsafe extern "C" fn(*const c_char) -> *mut c_void;
type Parse = unsafe extern "C" fn(*mut c_void, *const c_char, c_int, c_int) -> c_int;
type Free = unsafe extern "C" fn(*mut c_void);

pub struct Expat {
    create: Create,
    parse: Parse,
    free: Free,
}

const NOW: c_int = 2;

fn found(library: *mut c_void, name: &CStr) -> Option<*mut c_void> {
    // SAFETY: the library is open and the name ends in 0.
    let function = unsafe { dlsym(library, name.as_ptr()) };
    (!function.is_null()).then_some(function)
}

impl Expat {
    pub fn open() -> Option<Expat> {
        // SAFETY: the name ends in 0; libexpat's loading runs no code of its own.
        let library = unsafe { dlopen(c"libexpat.so.1".as_ptr(), NOW) };
        if library.is_null() {
            return None;
        }
        let create = found(library, c"XML_ParserCreate")?;
        let parse = found(library, c"XML_Parse")?;
        let free = found(library, c"XML_ParserFree")?;
        // SAFETY: these are the types that expat.h declares.
        unsafe {
            Some(Expat {
                create: std::mem::transmute::<*mut c_void, Create>(create),
                parse: std::mem::transmute::<*mut c_void, Parse>(parse),
                free: std::mem::transmute::<*mut c_void, Free>(free),
            })
        }
    }

    /// Parses the whole text without handlers. Is it well-formed?
    pub fn parses(&self, text: &str) -> bool {
        // SAFETY: a new parser is given one text of its length and freed once.
        unsafe {
            let parser = (self.create)(std::ptr::null());
            let done = (self.parse)(parser, text.as_ptr().cast(), text.len() as c_int, 1);
            (self.free)(parser);
            done == 1
        }
    }
}
