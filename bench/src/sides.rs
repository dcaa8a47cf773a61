//! The readers that are timed, each on a text in memory.

use kebrawish::{Accepted, Laid, Refusal};
use kebrawish_tests::{library, Verdict};
use std::ffi::{c_char, c_int, c_void, CString};
use std::ptr::NonNull;
use std::rc::Rc;
use std::time::{Duration, Instant};

extern "C" {
    fn dlopen(path: *const c_char, flags: c_int) -> *mut c_void;
    fn dlsym(library: *mut c_void, name: *const c_char) -> *mut c_void;
}

/// Bytes after a text that simdjson may read.
const PADDING: usize = 64;

/// A text and its padding.
pub struct Text {
    bytes: Vec<u8>,
}

impl Text {
    pub fn new(text: String) -> Rc<Text> {
        let mut bytes = text.into_bytes();
        bytes.resize(bytes.len() + PADDING, 0);
        Rc::new(Text { bytes })
    }

    pub fn bytes(&self) -> &[u8] {
        &self.bytes[..self.bytes.len() - PADDING]
    }
}

/// A reader.
pub enum Side {
    Judge,
    Lay,
    /// The independent reader's judge, with its tree dropped.
    Reader,
    Other(Other),
}

/// A JSON parser in a shared library. What it gives is released outside the timed part.
pub struct Other {
    name: String,
    parse: unsafe extern "C" fn(*const u8, usize) -> *mut c_void,
    release: unsafe extern "C" fn(*mut c_void),
}

impl Other {
    /// Opens the shared library at a path.
    pub fn open(name: &str, path: &str) -> Other {
        let word = |word: &str| CString::new(word).expect("no zero byte");
        const NOW: c_int = 2;
        // Safety: the libraries are those that bench/run built, whose functions have these types.
        unsafe {
            let library = dlopen(word(path).as_ptr(), NOW);
            assert!(!library.is_null(), "{path} cannot be opened");
            let find = |name: &str| {
                NonNull::new(dlsym(library, word(name).as_ptr()))
                    .expect("its functions")
                    .as_ptr()
            };
            Other {
                name: name.to_string(),
                parse: std::mem::transmute::<*mut c_void, _>(find("side_parse")),
                release: std::mem::transmute::<*mut c_void, _>(find("side_release")),
            }
        }
    }
}

impl Side {
    pub fn name(&self) -> &str {
        match self {
            Side::Judge => "judge",
            Side::Lay => "lay",
            Side::Reader => "reader",
            Side::Other(other) => &other.name,
        }
    }
}

/// A side on a text, its room, and the best time so far.
pub struct Runner {
    pub side: Rc<Side>,
    pub text: Rc<Text>,
    room: Vec<u8>,
    pub best: Duration,
}

/// What a call gives: an answer, or what a parser has in memory.
enum Given {
    Judged(Result<Accepted, Refusal>),
    Laid(Result<Laid, Refusal>),
    Read(Verdict),
    Tree(*mut c_void),
}

impl Runner {
    pub fn new(side: &Rc<Side>, text: &Rc<Text>) -> Runner {
        let room = match **side {
            Side::Lay => room(text),
            _ => 0,
        };
        Runner {
            side: side.clone(),
            text: text.clone(),
            room: vec![0xA5; room],
            best: Duration::MAX,
        }
    }

    #[inline(never)]
    fn call(&mut self) -> Given {
        let text = self.text.bytes();
        match &*self.side {
            Side::Judge => Given::Judged(kebrawish::judge(text)),
            Side::Lay => Given::Laid(kebrawish::lay(text, &mut self.room)),
            Side::Reader => Given::Read(kebrawish_tests::judge(text)),
            // Safety: the pointer and the length are those of a slice that lives through the call.
            Side::Other(other) => Given::Tree(unsafe { (other.parse)(text.as_ptr(), text.len()) }),
        }
    }

    fn release(&self, given: &Given) {
        if let (Side::Other(other), Given::Tree(tree)) = (&*self.side, given) {
            if !tree.is_null() {
                // Safety: the parser gave it, and it is released once.
                unsafe { (other.release)(*tree) }
            }
        }
    }

    /// Calls once, and keeps the time if it is the best.
    pub fn time(&mut self) {
        let begin = Instant::now();
        let given = self.call();
        self.best = self.best.min(begin.elapsed());
        self.release(&given);
    }

    /// Calls once under a name that callgrind can watch; before that once more, if the side may keep something.
    pub fn count(&mut self) {
        if !matches!(*self.side, Side::Judge | Side::Lay) {
            self.time();
        }
        let given = bench_counted(self);
        self.release(&given);
    }

    /// The answer, after a comparison with the independent reader: `accepted`, or the rule that refuses.
    pub fn check(&mut self) -> u8 {
        let given = self.call();
        self.release(&given);
        let text = self.text.bytes();
        let verdict = match given {
            Given::Laid(answer) => {
                let (verdict, bytes) = kebrawish_tests::lay(text, self.room.len());
                let laid = library::laid(text, answer);
                assert_eq!(laid, verdict, "lay and the reader differ");
                assert!(self.room == bytes, "the sheets differ");
                verdict
            }
            Given::Judged(answer) => {
                let verdict = kebrawish_tests::judge(text);
                let judged = library::judged(text, answer);
                assert_eq!(judged, verdict, "judge and the reader differ");
                verdict
            }
            Given::Read(verdict) => verdict,
            Given::Tree(tree) => return u8::from(tree.is_null()),
        };
        verdict.rule()
    }
}

#[no_mangle]
#[inline(never)]
extern "Rust" fn bench_counted(runner: &mut Runner) -> Given {
    runner.call()
}

/// The room that lay is lent: 65,536 bytes, doubled until the sheet fits.
pub fn room(text: &Text) -> usize {
    let sheet = match kebrawish_tests::read(text.bytes()) {
        Ok(model) => kebrawish_tests::sheet::encode(&model).len(),
        Err(_) => 0,
    };
    let mut room = 65_536;
    while room < sheet {
        room *= 2;
    }
    room
}

/// Runs each in turn for a millisecond, again and again for so long, and keeps the best times.
pub fn race(runners: &mut [Runner], seconds: f64) {
    let begin = Instant::now();
    for round in 0.. {
        if round >= 5 && begin.elapsed().as_secs_f64() > seconds {
            return;
        }
        for runner in &mut *runners {
            let turn = Instant::now();
            while {
                runner.time();
                turn.elapsed() < Duration::from_millis(1)
            } {}
        }
    }
}
