//! Each call on a full bank, in microseconds: the best of many, in turns over the slots.

use std::time::Instant;

#[rustfmt::skip]
unsafe extern "C" {
    fn stepsheaf_open(
        bank: *mut u64, words: usize, scratch: *mut u64, spare: usize, slot: usize, taps: usize, symmetry: u64, degree: usize,
        exchanges: usize, threshold: f64, kinds: *const u64, kind_count: usize, numbers: *const f64, number_count: usize,
    ) -> u64;
    fn stepsheaf_step(bank: *mut u64, words: usize, scratch: *mut u64, spare: usize, slot: usize) -> u64;
    fn stepsheaf_read(
        bank: *mut u64, words: usize, scratch: *mut u64, spare: usize, slot: usize, taps: *mut f64, tap_room: usize, freqs: *mut f64,
        freq_room: usize, report: *mut f64, report_room: usize, counts: *mut u64, count_room: usize,
    ) -> u64;
    fn stepsheaf_save(
        bank: *mut u64, words: usize, scratch: *mut u64, spare: usize, slot: usize, out: *mut u8, room: usize, counts: *mut u64,
        count_room: usize,
    ) -> u64;
    fn stepsheaf_restore(bank: *mut u64, words: usize, scratch: *mut u64, spare: usize, slot: usize, image: *const u8, size: usize) -> u64;
    fn stepsheaf_clear(bank: *mut u64, words: usize, scratch: *mut u64, spare: usize, slot: usize) -> u64;
}

struct Bank {
    words: Vec<u64>,
    scratch: Vec<u64>,
    taps: [f64; 128],
    freqs: [f64; 65],
    report: [f64; 2],
    made: [u64; 1],
    // the bytes of the last image saved
    counts: [u64; 1],
    bytes: [u8; 948],
}

impl Bank {
    fn open(&mut self, slot: usize) -> u64 {
        let edge = 0.1 + 0.01 * slot as f64;
        let numbers = [0.0, edge, 1.0, 1.0, 1.0, 1.0, edge + 0.04, 0.5, 0.0, 0.0, 1.0, 1.0];
        let (b, s) = (self.words.as_mut_ptr(), self.scratch.as_mut_ptr());
        unsafe { stepsheaf_open(b, 4096, s, 8192, slot, 127, 0, 8, 100, 1e-3, [0; 4].as_ptr(), 4, numbers.as_ptr(), 12) }
    }

    fn step(&mut self, slot: usize) -> u64 {
        unsafe { stepsheaf_step(self.words.as_mut_ptr(), 4096, self.scratch.as_mut_ptr(), 8192, slot) }
    }

    fn read(&mut self, slot: usize) -> u64 {
        let (b, s, t, f) = (self.words.as_mut_ptr(), self.scratch.as_mut_ptr(), self.taps.as_mut_ptr(), self.freqs.as_mut_ptr());
        unsafe { stepsheaf_read(b, 4096, s, 8192, slot, t, 128, f, 65, self.report.as_mut_ptr(), 2, self.made.as_mut_ptr(), 1) }
    }

    fn save(&mut self, slot: usize) -> u64 {
        let (b, s, out) = (self.words.as_mut_ptr(), self.scratch.as_mut_ptr(), self.bytes.as_mut_ptr());
        unsafe { stepsheaf_save(b, 4096, s, 8192, slot, out, 948, self.counts.as_mut_ptr(), 1) }
    }

    fn restore(&mut self, slot: usize) -> u64 {
        let (b, s, size) = (self.words.as_mut_ptr(), self.scratch.as_mut_ptr(), self.counts[0] as usize);
        unsafe { stepsheaf_restore(b, 4096, s, 8192, slot, self.bytes.as_ptr(), size) }
    }

    fn clear(&mut self, slot: usize) -> u64 {
        unsafe { stepsheaf_clear(self.words.as_mut_ptr(), 4096, self.scratch.as_mut_ptr(), 8192, slot) }
    }
}

fn main() {
    let mut bank = Bank {
        words: vec![0; 4096],
        scratch: vec![0; 8192],
        taps: [0.0; 128],
        freqs: [0.0; 65],
        report: [0.0; 2],
        made: [0],
        counts: [0],
        bytes: [0; 948],
    };
    (0..16).for_each(|slot| assert_eq!(bank.open(slot), 0));
    let names = ["open", "step", "read", "save", "restore", "clear"];
    let mut best = [f64::INFINITY; 6];
    for slot in (0..16).cycle().take(320) {
        let mut timed = |i: usize, call: &mut dyn FnMut(&mut Bank) -> u64| {
            let began = Instant::now();
            let answer = call(&mut bank);
            let took = began.elapsed().as_nanos() as f64 / 1e3;
            if answer == 0 {
                best[i] = best[i].min(took);
            }
            answer
        };
        assert_eq!(timed(5, &mut |b| b.clear(slot)), 0);
        assert_eq!(timed(0, &mut |b| b.open(slot)), 0);
        while timed(1, &mut |b| b.step(slot)) == 0 {
            assert_eq!(timed(3, &mut |b| b.save(slot)), 0);
        }
        assert_eq!(timed(2, &mut |b| b.read(slot)), 0);
        assert_eq!(timed(5, &mut |b| b.clear(slot)), 0);
        assert_eq!(timed(4, &mut |b| b.restore(slot)), 0);
    }
    println!("microseconds a call, 16 jobs of 127 taps");
    names.iter().zip(best).for_each(|(name, best)| println!("  {name:8} {best:8.2}"));
}
