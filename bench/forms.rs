//! Times forms of two loops of a tick, in plain Rust: how a few channels fade, and how the slots of
//! eight universes are brought from the levels. No bounds are checked, as in the program, which
//! proves them.
//!
//! rustc -C opt-level=3 -C lto=fat -C codegen-units=1 -C target-cpu=x86-64-v2 bench/forms.rs
//! ./forms

use std::hint::black_box;
use std::time::Instant;

const CHANNELS: usize = 4096;
const SLOTS: usize = 512;
const UNIVERSES: usize = 8;
const PARTS: u64 = 1 << 48;
const RUNS: usize = 300;
const ROUNDS: usize = 50;

/// Where the channels of a fade come from and go to, and which of them move.
struct Fade {
    from: Vec<u16>,
    to: Vec<u16>,
    moving: Vec<usize>,
}

/// Numbers that are the same at every run.
struct Chance(u64);

impl Chance {
    fn below(&mut self, bound: u64) -> u64 {
        self.0 ^= self.0 << 13;
        self.0 ^= self.0 >> 7;
        self.0 ^= self.0 << 17;
        self.0 % bound
    }
}

/// One cue goes and another comes, each of some two hundred channels among two thousand.
fn fade(chance: &mut Chance) -> Fade {
    let (mut from, mut to) = (vec![0; CHANNELS], vec![0; CHANNELS]);
    for channel in 0..CHANNELS / 2 {
        if chance.below(10) == 0 {
            from[channel] = 255 * chance.below(256) as u16;
        }
        if chance.below(10) == 0 {
            to[channel] = 255 * chance.below(256) as u16;
        }
    }
    let moving = (0..CHANNELS).filter(|&n| from[n] != to[n]).collect();
    Fade { from, to, moving }
}

fn part(way: u16, share: u64) -> u16 {
    (u64::from(way) * share / PARTS) as u16
}

#[inline(never)]
fn by_branch(levels: &mut [u16], fade: &Fade, rising: u64, falling: u64) {
    for &n in &fade.moving {
        // SAFETY: the channels that move are below CHANNELS, as long as each list is.
        unsafe {
            let (a, b) = (*fade.from.get_unchecked(n), *fade.to.get_unchecked(n));
            *levels.get_unchecked_mut(n) = if a < b {
                a.wrapping_add(part(b - a, rising))
            } else {
                a.wrapping_sub(part(a - b, falling))
            };
        }
    }
}

#[inline(never)]
fn by_choice(levels: &mut [u16], fade: &Fade, rising: u64, falling: u64) {
    for &n in &fade.moving {
        // SAFETY: as above.
        unsafe {
            let (a, b) = (*fade.from.get_unchecked(n), *fade.to.get_unchecked(n));
            let rises = a < b;
            let gone = part(a.abs_diff(b), if rises { rising } else { falling });
            let moved = if rises {
                a.wrapping_add(gone)
            } else {
                a.wrapping_sub(gone)
            };
            *levels.get_unchecked_mut(n) = moved;
        }
    }
}

#[inline(never)]
fn by_eight(out: &mut [u8; SLOTS], slots: &[u8; CHANNELS], sources: &[u16; SLOTS]) {
    for group in 0..SLOTS / 8 {
        let place = 8 * group;
        let mut eight = [0; 8];
        for n in 0..8 {
            // SAFETY: the place is below SLOTS, and a source below CHANNELS.
            let source = unsafe { *sources.get_unchecked(place + n) };
            eight[n] = unsafe { *slots.get_unchecked(usize::from(source)) };
        }
        out[place..place + 8].copy_from_slice(&eight);
    }
}

#[inline(never)]
fn by_one(out: &mut [u8; SLOTS], slots: &[u8; CHANNELS], sources: &[u16; SLOTS]) {
    for (slot, source) in out.iter_mut().zip(sources) {
        // SAFETY: a source is below CHANNELS.
        *slot = unsafe { *slots.get_unchecked(usize::from(*source)) };
    }
}

/// The least nanoseconds that one of some rounds took, of many runs.
fn least(mut round: impl FnMut(u64)) -> f64 {
    let runs = (0..RUNS).map(|_| {
        let start = Instant::now();
        (1..=ROUNDS as u64).for_each(&mut round);
        start.elapsed().as_nanos() as f64 / ROUNDS as f64
    });
    runs.fold(f64::INFINITY, f64::min)
}

fn main() {
    let mut chance = Chance(2026);
    let fade = fade(&mut chance);
    let mut levels = vec![0; CHANNELS];
    for (name, form) in [
        ("by branch", by_branch as fn(&mut [u16], &Fade, u64, u64)),
        ("by choice", by_choice),
    ] {
        let round = |n: u64| {
            form(
                &mut levels,
                black_box(&fade),
                n * PARTS / 60,
                n * PARTS / 70,
            )
        };
        println!(
            "a channel that fades, {name}: {:.2} ns",
            least(round) / fade.moving.len() as f64
        );
    }
    let slots: [u8; CHANNELS] = std::array::from_fn(|n| (7 * n) as u8);
    let sources: [[u16; SLOTS]; UNIVERSES] = std::array::from_fn(|k| {
        std::array::from_fn(|n| ((SLOTS * k + n) * 2731 % CHANNELS) as u16)
    });
    let mut frames = [[0; SLOTS]; UNIVERSES];
    for (name, form) in [
        (
            "by eight",
            by_eight as fn(&mut [u8; SLOTS], &[u8; CHANNELS], &[u16; SLOTS]),
        ),
        ("by one", by_one),
    ] {
        let round = |_| {
            for (frame, sources) in frames.iter_mut().zip(&sources) {
                form(black_box(frame), black_box(&slots), sources);
            }
        };
        println!("4096 slots, {name}: {:.0} ns", least(round));
    }
}
