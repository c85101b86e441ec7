//! Times the planner and the check of its plan, on images of several sizes with several patterns of what is held.
//! A time is the least of many calls, in microseconds.

mod least;

use least::least;
use std::hint::black_box;

// A slice is a pointer and a length.
extern "C" {
    fn timed_plan(size: usize, held: *const u8, units: usize, list: *mut u32, room: usize) -> usize;
    fn timed_check(size: usize, held: *const u8, units: usize, plan: *const u32, count: usize) -> bool;
}

fn plan(held: &[u8], list: &mut [u32]) -> usize {
    // SAFETY: the pointers and lengths are those of slices, and the function is proved to stay within them.
    unsafe { timed_plan(held.len() * 16, held.as_ptr(), held.len(), list.as_mut_ptr(), list.len()) }
}

fn check(held: &[u8], values: &[u32]) -> bool {
    // SAFETY: as above.
    unsafe { timed_check(held.len() * 16, held.as_ptr(), held.len(), values.as_ptr(), values.len()) }
}

fn main() {
    println!("{:22}{:>8}{:>8}{:>10}{:>10}{:>14}", "held", "units", "blocks", "plan", "check", "list to size");
    for units in [4096, 16384, 65536] {
        measure("nothing", &vec![0; units]);
        measure("all", &vec![1; units]);
        measure("every second unit", &(0..units).map(|u| (u % 2) as u8).collect::<Vec<_>>());
        measure("a random half", &random_half(units));
        measure("the last of each 64", &(0..units).map(|u| (u % 64 == 63) as u8).collect::<Vec<_>>());
    }
}

/// The same units in every run: the high bit of a linear congruence.
fn random_half(units: usize) -> Vec<u8> {
    let mut state: u64 = 2025;
    let mut next = || {
        state = state.wrapping_mul(6364136223846793005).wrapping_add(1442695040888963407);
        (state >> 63) as u8
    };
    (0..units).map(|_| next()).collect()
}

/// `plan` into a list of half as many numbers as there are units; then, where that is shorter, into one of just its length.
fn measure(name: &str, held: &[u8]) {
    let mut list = vec![0; (held.len() + 1) / 2];
    let count = plan(held, &mut list);
    assert!(count <= list.len() && check(held, &list[..count]));
    let planned = least(|| plan(black_box(held), black_box(&mut list)) == count);
    let values = list[..count].to_vec();
    let checked = least(|| check(black_box(held), black_box(&values)));
    let mut short = vec![0; count];
    let counted = least(|| plan(black_box(held), black_box(&mut short)) == count);
    println!("{name:22}{:>8}{count:>8}{planned:>10.1}{checked:>10.1}{counted:>14.1}", held.len());
}
