//! What a job costs: CPU time, and instructions where the machine or callgrind can count them.

use std::os::raw::{c_int, c_long};
use std::path::Path;
use std::process::{Command, Stdio};

#[repr(C)]
#[derive(Default)]
struct Timespec {
    seconds: i64,
    nanoseconds: c_long,
}

extern "C" {
    fn clock_gettime(clock: c_int, time: *mut Timespec) -> c_int;
    fn syscall(number: c_long, ...) -> c_long;
    fn read(file: c_int, to: *mut u64, count: usize) -> isize;
    fn mallopt(what: c_int, value: c_int) -> c_int;
}

/// Has the allocator keep what it once got from the system: the library's memory is lent, so that the second program
/// is not charged for getting its own anew in every run.
pub fn keep_memory() {
    const TRIM_THRESHOLD: c_int = -1;
    const MMAP_THRESHOLD: c_int = -3;
    const ARENA_MAX: c_int = -8;
    for (what, value) in [(ARENA_MAX, 1), (TRIM_THRESHOLD, c_int::MAX), (MMAP_THRESHOLD, 1 << 25)] {
        // SAFETY: three settings of the C library, each within its limits.
        unsafe { mallopt(what, value) };
    }
}

const CLOCK_PROCESS_CPUTIME_ID: c_int = 2;

/// Seconds of CPU that this process has used.
fn cpu_time() -> f64 {
    let mut time = Timespec::default();
    // SAFETY: the call writes one Timespec, as the C library lays it out on 64-bit Linux.
    let failed = unsafe { clock_gettime(CLOCK_PROCESS_CPUTIME_ID, &mut time) };
    assert_eq!(failed, 0, "a CPU clock");
    time.seconds as f64 + time.nanoseconds as f64 / 1e9
}

/// Seconds for which a job is run over and over.
const BUDGET: f64 = 0.15;
/// What is shorter is timed several at once: reading the clock takes a part of a microsecond.
const SHORTEST: f64 = 200e-6;

/// The least CPU time of some runs, at least three, in seconds.
pub fn least_time(mut job: impl FnMut()) -> f64 {
    let (mut at_once, mut runs, mut spent, mut least) = (1u32, 0, 0.0, f64::INFINITY);
    while runs < 3 || spent < BUDGET {
        let start = cpu_time();
        (0..at_once).for_each(|_| job());
        let time = cpu_time() - start;
        if time < SHORTEST {
            at_once *= 2;
        } else {
            (runs, spent, least) = (runs + 1, spent + time, least.min(time / f64::from(at_once)));
        }
    }
    least
}

/// The machine's own counter of instructions in user code, for this thread.
pub struct Counter(c_int);

impl Counter {
    /// None where the machine or the system gives no such counter.
    pub fn open() -> Option<Counter> {
        const PERF_EVENT_OPEN: c_long = 298;
        const HARDWARE_INSTRUCTIONS: u64 = 1;
        const USER_CODE_ONLY: u64 = 1 << 5 | 1 << 6;
        // struct perf_event_attr, first version: type 0 and size, config, sample period and type, read format, flags.
        let attributes: [u64; 8] = [64 << 32, HARDWARE_INSTRUCTIONS, 0, 0, 0, USER_CODE_ONLY, 0, 0];
        if !cfg!(all(target_os = "linux", target_arch = "x86_64")) {
            return None;
        }
        let (this_thread, any_core, no_group, no_flags) = (0 as c_int, -1 as c_int, -1 as c_int, 0 as c_long);
        // SAFETY: the system reads the 64 bytes that the attributes say they have.
        let file = unsafe { syscall(PERF_EVENT_OPEN, attributes.as_ptr(), this_thread, any_core, no_group, no_flags) };
        (file >= 0).then_some(Counter(file as c_int)).filter(|counter| counter.count() > 0)
    }

    fn count(&self) -> u64 {
        let mut count = 0;
        // SAFETY: eight bytes are asked for and there is room for them.
        let bytes = unsafe { read(self.0, &mut count, 8) };
        assert_eq!(bytes, 8, "a counter's number");
        count
    }

    pub fn instructions(&self, mut job: impl FnMut()) -> f64 {
        let before = self.count();
        job();
        (self.count() - before) as f64
    }
}

/// A job under callgrind, which counts from here to the return.
#[no_mangle]
#[inline(never)]
extern "C" fn counted_by_callgrind(job: &mut &mut dyn FnMut()) {
    job();
}

pub fn counted(mut job: impl FnMut()) {
    counted_by_callgrind(&mut (&mut job as &mut dyn FnMut()));
}

/// Runs this program again under callgrind, with one argument: the instructions of each call of `counted`, in order.
/// None without valgrind. The C library is told to clear by wide stores, since callgrind takes a repeated store for as
/// many instructions as it writes bytes.
pub fn by_callgrind(mode: &str) -> Option<Vec<f64>> {
    let folder = std::env::temp_dir().join(format!("differential-count-{}", std::process::id()));
    std::fs::create_dir_all(&folder).ok()?;
    let out = folder.join("part");
    let ended = Command::new("valgrind")
        .args(["--tool=callgrind", "--zero-before=counted_by_callgrind", "--dump-after=counted_by_callgrind"])
        .arg(format!("--callgrind-out-file={}", out.display()))
        .arg(std::env::current_exe().ok()?)
        .arg(mode)
        .env("GLIBC_TUNABLES", "glibc.cpu.x86_rep_stosb_threshold=1000000000")
        .stdout(Stdio::null())
        .stderr(Stdio::null())
        .status();
    let counts = ended.is_ok_and(|status| status.success()).then(|| totals(&out));
    _ = std::fs::remove_dir_all(&folder);
    counts
}

/// The totals of callgrind's parts 1, 2 and so on.
fn totals(out: &Path) -> Vec<f64> {
    let part = |number: u32| {
        let text = std::fs::read_to_string(format!("{}.{number}", out.display())).ok()?;
        let total = text.lines().find_map(|line| line.strip_prefix("totals: "))?;
        total.trim().parse().ok()
    };
    (1..).map_while(part).collect()
}
