// What bench/explore puts in place of `main` of plain/main.rs, linked with libFuzzer: a command of the plain program is
// done in this process, over and over. The first byte of an input says which one, by the lines of the file `commands`,
// and whether standard output takes nothing; the rest is the file `f`, which `<f` makes standard input, or, for the empty
// line, the words themselves. The files that the commands name are held, so that the system isn't asked for them each
// time. With the variables INPUTS (a file of names) and COVERED (one to be made) it tells which edges each of these
// inputs reaches.

use std::ffi::{c_char, c_int};
use std::os::fd::AsRawFd;
use std::sync::{Mutex, OnceLock};

unsafe extern "C" {
    fn LLVMFuzzerRunDriver(
        count: *mut c_int,
        words: *mut *mut *mut c_char,
        input: extern "C" fn(*const u8, usize) -> c_int,
    ) -> c_int;
    fn dup2(from: c_int, to: c_int) -> c_int;
}

/// The address of a name that the coverage pass of the compiler declares itself.
macro_rules! address {
    ($name:literal) => {{
        let address: usize;
        unsafe { std::arch::asm!(concat!("lea {}, [rip + ", $name, "]"), out(reg) address) };
        address
    }};
}

/// What all inputs share.
struct Bench {
    commands: Vec<String>,
    files: Vec<(&'static str, Vec<u8>)>,
    outputs: [File; 2],
}

/// What the file `f` has.
static INPUT: Mutex<Vec<u8>> = Mutex::new(Vec::new());

static BENCH: OnceLock<Bench> = OnceLock::new();

impl Bench {
    fn new() -> Bench {
        let output = |name| File::options().write(true).open(name).unwrap();
        Bench {
            commands: fs::read_to_string("commands").unwrap().split('\n').map(str::to_string).collect(),
            files: ["c", "b", "h", "i", "k", "r", "t", "u"].map(|name| (name, fs::read(name).unwrap())).into(),
            outputs: [output("/dev/null"), output("/dev/full")],
        }
    }

    fn put(&self, content: &[u8]) {
        let mut input = INPUT.lock().unwrap();
        input.clear();
        input.extend_from_slice(content);
    }

    fn play(&self, kind: u8, content: &[u8]) {
        let line = &self.commands[usize::from(kind & 127) % self.commands.len()];
        let words: Result<Vec<&str>, _> = if line.is_empty() {
            self.put(&self.files[0].1);
            content.split(|byte| *byte == b'\n').map(std::str::from_utf8).collect()
        } else {
            self.put(content);
            Ok(line.split(' ').filter(|word| *word != "<f").collect())
        };
        // No system hands such words on, and a long soak takes too long.
        if line.is_empty() && (content.contains(&0) || content.starts_with(b"soak") && content.len() > 8) {
            return;
        }
        unsafe { dup2(self.outputs[usize::from(kind >> 7)].as_raw_fd(), 1) };
        let done = words.map_or(Err(End::Usage), |words| command(&words));
        if let Err(end) = done {
            assert!((2..=6).contains(&end.status()) && !end.note().chars().any(char::is_control));
        }
    }
}

/// The bytes of a file that is held.
pub fn held(name: &str) -> Option<Vec<u8>> {
    if name == "f" {
        return Some(INPUT.lock().unwrap().clone());
    }
    BENCH.get()?.files.iter().find(|(held, _)| *held == name).map(|(_, bytes)| bytes.clone())
}

/// The input as a file, in place of standard input.
pub fn given() -> File {
    fs::write("given", INPUT.lock().unwrap().as_slice()).unwrap();
    File::open("given").unwrap()
}

extern "C" fn input(data: *const u8, size: usize) -> c_int {
    let data = unsafe { std::slice::from_raw_parts(data, size) };
    if let Some((kind, content)) = data.split_first() {
        BENCH.get_or_init(Bench::new).play(*kind, content);
    }
    0
}

/// The counters of all edges.
fn counters() -> &'static mut [u8] {
    let (first, last) = (address!("__start___sancov_cntrs"), address!("__stop___sancov_cntrs"));
    unsafe { std::slice::from_raw_parts_mut(first as *mut u8, last - first) }
}

/// The place of each edge in the program, and whether it begins a function, a line each.
fn edges() -> String {
    let places = address!("__start___sancov_pcs") as *const [usize; 2];
    let edge = |number| {
        let [place, flags] = unsafe { *places.add(number) };
        format!("{place:#x} {}\n", flags & 1)
    };
    (0..counters().len()).map(edge).collect()
}

/// Plays each of these inputs once: below the edges stands a line for each, with a digit for each edge.
fn cover(names: &[String], place: &str) {
    let bench = BENCH.get_or_init(Bench::new);
    let mut told = edges();
    for name in names {
        counters().fill(0);
        if let Some((kind, content)) = fs::read(name).unwrap().split_first() {
            bench.play(*kind, content);
        }
        told.extend(counters().iter().map(|count| if *count > 0 { '1' } else { '0' }));
        told.push('\n');
    }
    fs::write(place, told).unwrap();
}

fn main() {
    let words: Vec<String> = env::args().collect();
    if let (Ok(list), Ok(place)) = (env::var("INPUTS"), env::var("COVERED")) {
        let names: Vec<String> = fs::read_to_string(list).unwrap().lines().map(str::to_string).collect();
        return cover(&names, &place);
    }
    let mut pointers: Vec<*mut c_char> =
        words.iter().map(|word| std::ffi::CString::new(word.as_str()).unwrap().into_raw()).collect();
    let (mut count, mut first) = (pointers.len() as c_int, pointers.as_mut_ptr());
    exit(unsafe { LLVMFuzzerRunDriver(&mut count, &mut first, input) });
}
