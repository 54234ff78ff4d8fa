//! Three files of the same calls, which tests/both-libraries writes: the proved library as it is, a copy of it, and the
//! library with tags compared by order, as before Paper 5. They are loaded and called alike.
use crate::side::Side;
use common::{Step, Words};
use hatukeno::{Refusal, BOARD_WORDS};
use std::ffi::{c_char, c_int, c_void, CStr};
use std::mem::transmute;
use std::process::exit;
use std::sync::OnceLock;

const FILES: [&CStr; 3] = [c"target/bench/now.so", c"target/bench/again.so", c"target/bench/before.so"];
pub type Now = Loaded<0>;
pub type Again = Loaded<1>;
pub type Before = Loaded<2>;

const ANSWER_WORDS: usize = 7;

/// A call with a lent board, room for its answer, and one number or two.
type Call1 = unsafe extern "C" fn(*mut u32, usize, *mut u32, usize, u32) -> u32;
type Call2 = unsafe extern "C" fn(*mut u32, usize, *mut u32, usize, u32, u32) -> u32;

struct Library {
    fresh: Call2,
    begin_read: Call1,
    begin_write: Call2,
    deliver: Call2,
    node_down: Call1,
    console_down: Call1,
    node_up: Call1,
    restart: Call1,
}

extern "C" {
    fn dlopen(file: *const c_char, flags: c_int) -> *mut c_void;
    fn dlsym(library: *mut c_void, name: *const c_char) -> *mut c_void;
    fn dlerror() -> *const c_char;
}

/// dlopen's word for finding every name at once.
const RTLD_NOW: c_int = 2;

impl Library {
    fn load(file: &CStr) -> Library {
        let library = unsafe { dlopen(file.as_ptr(), RTLD_NOW) };
        if library.is_null() {
            let why = unsafe { CStr::from_ptr(dlerror()) };
            eprintln!("bench: {} (tests/both-libraries writes it)", why.to_string_lossy());
            exit(2);
        }
        let call = |name: &CStr| {
            let call = unsafe { dlsym(library, name.as_ptr()) };
            if call.is_null() {
                eprintln!("bench: {file:?} has no {name:?}");
                exit(2);
            }
            call
        };
        let one = |name| unsafe { transmute::<*mut c_void, Call1>(call(name)) };
        let two = |name| unsafe { transmute::<*mut c_void, Call2>(call(name)) };
        Library {
            fresh: two(c"board_fresh"),
            begin_read: one(c"board_begin_read"),
            begin_write: two(c"board_begin_write"),
            deliver: two(c"board_deliver"),
            node_down: one(c"board_node_down"),
            console_down: one(c"board_console_down"),
            node_up: one(c"board_node_up"),
            restart: one(c"board_restart"),
        }
    }
}

fn library<const WHICH: usize>() -> &'static Library {
    static LIBRARIES: OnceLock<[Library; 3]> = OnceLock::new();
    &LIBRARIES.get_or_init(|| FILES.map(Library::load))[WHICH]
}

/// A board of one of the libraries.
#[derive(Clone)]
pub struct Loaded<const WHICH: usize>(Words);

impl<const WHICH: usize> Loaded<WHICH> {
    fn call(&mut self, step: impl FnOnce(*mut u32, usize, *mut u32, usize) -> u32) -> [u32; ANSWER_WORDS] {
        let mut said = [0; ANSWER_WORDS];
        let short = step(self.0.as_mut_ptr(), BOARD_WORDS, said.as_mut_ptr(), ANSWER_WORDS);
        assert_eq!(short, 0, "both arrays have the library's lengths");
        said
    }
}

impl<const WHICH: usize> Side for Loaded<WHICH> {
    type Said = [u32; ANSWER_WORDS];

    fn made(n: u32, m: u32) -> Result<Self, Refusal> {
        let mut board = Loaded([0; BOARD_WORDS]);
        match board.call(|w, wl, s, sl| unsafe { (library::<WHICH>().fresh)(w, wl, s, sl, n, m) }) {
            [0, refusal, ..] => Err(Refusal(refusal)),
            _ => Ok(board),
        }
    }

    fn of(words: &Words) -> Self {
        Loaded(*words)
    }

    fn in_words(&self) -> Words {
        self.0
    }

    fn step(&mut self, step: Step) -> Self::Said {
        let calls = library::<WHICH>();
        self.call(|w, wl, s, sl| unsafe {
            match step {
                Step::BeginRead(c) => (calls.begin_read)(w, wl, s, sl, c),
                Step::BeginWrite(c, v) => (calls.begin_write)(w, wl, s, sl, c, v),
                Step::Deliver(c, k) => (calls.deliver)(w, wl, s, sl, c, k),
                Step::NodeDown(k) => (calls.node_down)(w, wl, s, sl, k),
                Step::ConsoleDown(c) => (calls.console_down)(w, wl, s, sl, c),
                Step::NodeUp(k) => (calls.node_up)(w, wl, s, sl, k),
                Step::Restart(c) => (calls.restart)(w, wl, s, sl, c),
            }
        })
    }
}
