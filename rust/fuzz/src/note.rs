//! Where the fuzzer is. It is told when a call goes wrong, also when the program is ended from outside or by a crash inside the library.
use std::{
    fmt,
    io::Write,
    panic,
    sync::atomic::{AtomicU64, Ordering::Relaxed},
};

static SEED: AtomicU64 = AtomicU64::new(0);
static CALL: AtomicU64 = AtomicU64::new(0);

mod c {
    pub const STANDARD_ERROR: i32 = 2;
    pub const DEFAULT: usize = 0;

    extern "C" {
        pub fn signal(number: i32, handler: usize) -> usize;
        pub fn raise(number: i32) -> i32;
        pub fn write(file: i32, bytes: *const u8, length: usize) -> isize;
    }
}

/// Bad instruction, abort, bus error, bad arithmetic and bad memory; interrupted and told to end, as by a person or a timer.
const SIGNALS: [i32; 7] = [4, 6, 7, 8, 11, 2, 15];

/// From now on a crash and a panic tell where the fuzzer is.
pub fn tell_of_crashes(seed: u64) {
    SEED.store(seed, Relaxed);
    for number in SIGNALS {
        // SAFETY: the handler does only what a handler may do: no allocation, no lock.
        unsafe { c::signal(number, on_signal as extern "C" fn(i32) as usize) };
    }
    let usual = panic::take_hook();
    panic::set_hook(Box::new(move |panicked| {
        usual(panicked);
        eprintln!("fuzz: {}", here());
    }));
}

/// The call that is about to be made.
pub fn at_call(number: u64) {
    CALL.store(number, Relaxed);
}

/// How to come here again.
pub fn here() -> impl fmt::Display {
    struct Here(u64, u64);
    impl fmt::Display for Here {
        fn fmt(&self, f: &mut fmt::Formatter) -> fmt::Result {
            let Here(seed, call) = self;
            write!(f, "at call {call}; `fuzz --seed {seed} --show {call}` comes to it again and prints what is lent to it")
        }
    }
    Here(SEED.load(Relaxed), CALL.load(Relaxed))
}

extern "C" fn on_signal(number: i32) {
    let mut text = [0; 256];
    let mut rest = &mut text[..];
    _ = writeln!(rest, "fuzz: ended by signal {number} {}", here());
    let length = 256 - rest.len();
    // SAFETY: the text is lent for the call. The signal then ends the program in the usual way.
    unsafe {
        c::write(c::STANDARD_ERROR, text.as_ptr(), length);
        c::signal(number, c::DEFAULT);
        c::raise(number);
    }
}
