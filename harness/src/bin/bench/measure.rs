//! The ratio Rattle / Rust of one function, in executed instructions and in time.
use std::arch::asm;
use std::sync::atomic::{AtomicU64, Ordering::Relaxed};
use std::time::Instant;

/// One function on both sides. `drive` calls what it is given on inputs of its own; `idle` does nothing, so that the
/// instructions of the driver and of a bare call can be taken off.
pub struct Case<'a, F> {
    pub name: &'a str,
    pub drive: &'a dyn Fn(F),
    pub rattle: F,
    pub rust: F,
    pub idle: F,
}

impl<F: Copy> Case<'_, F> {
    pub fn report(&self, with_time: bool) {
        self.report_with(with_time, |_, _| String::new());
    }

    /// The same, and how many instructions each of so many parts of the input takes on both sides.
    pub fn report_each(&self, with_time: bool, parts: usize, name: &str) {
        let each = |all: u64| all as f64 / parts as f64;
        self.report_with(with_time, |rattle, rust| format!(", {:.1} / {:.1} each {name}", each(rattle), each(rust)));
    }

    /// What is said behind the instructions follows from those of both sides.
    fn report_with(&self, with_time: bool, more: impl Fn(u64, u64) -> String) {
        let driver = self.instructions(self.idle);
        let rattle = self.instructions(self.rattle) - driver;
        let rust = self.instructions(self.rust) - driver;
        let ratio = rattle as f64 / rust as f64;
        print!("{:<24} instructions {ratio:.3} ({rattle} / {rust}){}", self.name, more(rattle, rust));
        if with_time {
            let ratios = self.ratios_of_time();
            print!("  time {:.3} (quartiles {:.3} {:.3})", ratios[10], ratios[5], ratios[15]);
        }
        println!();
    }

    fn instructions(&self, f: F) -> u64 {
        let f = hidden(f);
        (self.drive)(f); // what happens once only, as the binding of a symbol, does not count
        instructions(&|| (self.drive)(f)) - instructions(&|| ())
    }

    /// The ratios of 21 pairs, sorted. The order changes with each pair, so that a drift favours neither side.
    fn ratios_of_time(&self) -> [f64; 21] {
        let rattle = |turns| self.seconds(self.rattle, turns);
        let rust = |turns| self.seconds(self.rust, turns);
        let mut turns = 1;
        while rattle(turns).min(rust(turns)) < 0.01 {
            turns *= 2;
        }
        let mut ratios = [0.0; 21];
        for (pair, ratio) in ratios.iter_mut().enumerate() {
            // the left side runs first
            *ratio = if pair % 2 == 0 { rattle(turns) / rust(turns) } else { 1.0 / (rust(turns) / rattle(turns)) };
        }
        ratios.sort_by(f64::total_cmp);
        ratios
    }

    fn seconds(&self, f: F, turns: u32) -> f64 {
        let f = hidden(f);
        let start = Instant::now();
        for _ in 0..turns {
            (self.drive)(f);
        }
        start.elapsed().as_secs_f64()
    }
}

/// Keeps the optimiser from knowing the value (`std::hint::black_box` is younger than Debian 12's compiler).
#[inline(always)]
pub fn hidden<T>(mut value: T) -> T {
    // SAFETY: nothing is executed; the compiler has to take it that the value was read and changed.
    unsafe { asm!("/* {0} */", in(reg) &mut value as *mut T, options(nostack, preserves_flags)) };
    value
}

static STEPS: AtomicU64 = AtomicU64::new(0);

extern "C" fn on_trap(_: i32) {
    STEPS.fetch_add(1, Relaxed);
}

extern "C" {
    fn signal(number: i32, handler: usize) -> usize;
}

/// The number of instructions that `f` and a few around it execute, exactly: with the trap flag set a processor raises
/// SIGTRAP after each instruction, and so does the emulator.
#[inline(never)]
fn instructions(f: &dyn Fn()) -> u64 {
    const SIGTRAP: i32 = 5;
    STEPS.store(0, Relaxed);
    // SAFETY: the handler does nothing but add to an atomic number.
    unsafe { signal(SIGTRAP, on_trap as extern "C" fn(i32) as usize) };
    // SAFETY: of all that the program sees only the trap flag changes, here and below.
    unsafe { asm!("pushfq", "or qword ptr [rsp], 0x100", "popfq") };
    f();
    unsafe { asm!("pushfq", "and qword ptr [rsp], -0x101", "popfq") };
    STEPS.load(Relaxed)
}
