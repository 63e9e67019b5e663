//! glibc's dgettext on the same file, where it finds it.
use crate::files::Message;
use std::ffi::{c_char, c_int, CStr, CString};
use std::fs;
use std::os::unix::ffi::OsStrExt;
use std::path::Path;

extern "C" {
    fn setlocale(category: c_int, locale: *const c_char) -> *const c_char;
    fn bindtextdomain(domain: *const c_char, folder: *const c_char) -> *const c_char;
    fn bind_textdomain_codeset(domain: *const c_char, codeset: *const c_char) -> *const c_char;
    fn dgettext(domain: *const c_char, id: *const c_char) -> *const c_char;
}

const LC_ALL: c_int = 6;

pub struct Domain(CString);

pub fn text(s: &str) -> CString {
    CString::new(s).expect("no NUL in an id")
}

impl Domain {
    /// The file as a domain of its own, which no other has the name of, if glibc then translates its first message.
    pub fn open(scratch: &Path, name: &str, file: &[u8], first: &Message) -> Option<Domain> {
        let folder = fs::canonicalize(scratch).ok()?.join("locale");
        let messages = folder.join("ru/LC_MESSAGES");
        fs::create_dir_all(&messages).ok()?;
        fs::write(messages.join(format!("{name}.mo")), file).ok()?;
        std::env::set_var("LANGUAGE", "ru");
        let domain = Domain(text(name));
        let folder = CString::new(folder.as_os_str().as_bytes()).ok()?;
        // SAFETY: every pointer is to a text that ends in NUL and lives through the call; this process has one thread.
        unsafe {
            if setlocale(LC_ALL, text("C.UTF-8").as_ptr()).is_null() {
                return None;
            }
            bindtextdomain(domain.0.as_ptr(), folder.as_ptr());
            bind_textdomain_codeset(domain.0.as_ptr(), text("UTF-8").as_ptr());
        }
        let expected = first.translation.split('\0').next()?;
        (domain.gettext(&text(&first.id)).to_bytes() == expected.as_bytes()).then_some(domain)
    }

    pub fn gettext<'a>(&'a self, id: &'a CStr) -> &'a CStr {
        // SAFETY: both texts end in NUL; what comes back is the id or a text that glibc keeps until the process ends.
        unsafe { CStr::from_ptr(dgettext(self.0.as_ptr(), id.as_ptr())) }
    }
}
