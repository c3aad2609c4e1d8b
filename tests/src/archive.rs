//! The calls of the library's archive, on buffers that show every stray write.
//!
//! Each buffer stands between canaries and is full of noise before the call. What a call may not change is compared with what it was.

use crate::calls::whole_steps;
use crate::convert::Way;
use crate::nodes::LARGEST_PLAN;
use crate::prizes::Fund;
use crate::random::Random;

extern "C" {
    fn club_report(
        set: *const u8,
        set_len: usize,
        plan: *const u8,
        plan_len: usize,
        out: *mut i64,
        out_len: usize,
        scratch: *mut u64,
        scratch_len: usize,
    ) -> u64;
    fn club_unnest(
        set: *const u8,
        set_len: usize,
        plan: *const u8,
        plan_len: usize,
        out_plan: *mut u8,
        out_plan_len: usize,
        out_steps: *mut u8,
        out_steps_len: usize,
        scratch: *mut u64,
        scratch_len: usize,
    ) -> u64;
    fn club_stay_note(
        set: *const u8,
        set_len: usize,
        plan: *const u8,
        plan_len: usize,
        place: usize,
        scratch: *mut u64,
        scratch_len: usize,
    ) -> u64;
    fn club_check_steps(
        set: *const u8,
        set_len: usize,
        plan: *const u8,
        plan_len: usize,
        steps: *const u8,
        steps_len: usize,
        theirs: *const u8,
        theirs_len: usize,
        scratch: *mut u64,
        scratch_len: usize,
    ) -> u64;
    fn club_prize(
        set: *const u8,
        set_len: usize,
        plan: *const u8,
        plan_len: usize,
        purse: u64,
        shares: *const u32,
        shares_len: usize,
        out: *mut i64,
        out_len: usize,
        scratch: *mut u64,
        scratch_len: usize,
    ) -> u64;
    fn club_convert_up(
        set: *const u8,
        set_len: usize,
        plan: *const u8,
        plan_len: usize,
        out_set: *mut u8,
        out_set_len: usize,
        out_plan: *mut u8,
        out_plan_len: usize,
    ) -> u64;
    fn club_convert_down(
        set: *const u8,
        set_len: usize,
        plan: *const u8,
        plan_len: usize,
        out_set: *mut u8,
        out_set_len: usize,
        out_plan: *mut u8,
        out_plan_len: usize,
    ) -> u64;
}

/// Either call of the converter.
type Convert = unsafe extern "C" fn(*const u8, usize, *const u8, usize, *mut u8, usize, *mut u8, usize) -> u64;

/// The reporting call on slices: its word.
pub fn report_in(set: &[u8], plan: &[u8], out: &mut [i64], scratch: &mut [u64]) -> u64 {
    // Each pointer is to so many elements as told, and no two slices overlap.
    unsafe {
        club_report(
            set.as_ptr(),
            set.len(),
            plan.as_ptr(),
            plan.len(),
            out.as_mut_ptr(),
            out.len(),
            scratch.as_mut_ptr(),
            scratch.len(),
        )
    }
}

/// The unnesting call on slices: its word.
pub fn unnest_in(set: &[u8], plan: &[u8], out_plan: &mut [u8], out_steps: &mut [u8], scratch: &mut [u64]) -> u64 {
    // As in `report_in`.
    unsafe {
        club_unnest(
            set.as_ptr(),
            set.len(),
            plan.as_ptr(),
            plan.len(),
            out_plan.as_mut_ptr(),
            out_plan.len(),
            out_steps.as_mut_ptr(),
            out_steps.len(),
            scratch.as_mut_ptr(),
            scratch.len(),
        )
    }
}

/// The stay note call on slices: its word.
pub fn stay_note_in(set: &[u8], plan: &[u8], place: usize, scratch: &mut [u64]) -> u64 {
    // As in `report_in`.
    unsafe {
        club_stay_note(set.as_ptr(), set.len(), plan.as_ptr(), plan.len(), place, scratch.as_mut_ptr(), scratch.len())
    }
}

/// The checking call on slices: its word.
pub fn check_steps_in(set: &[u8], plan: &[u8], steps: &[u8], theirs: &[u8], scratch: &mut [u64]) -> u64 {
    // As in `report_in`.
    unsafe {
        club_check_steps(
            set.as_ptr(),
            set.len(),
            plan.as_ptr(),
            plan.len(),
            steps.as_ptr(),
            steps.len(),
            theirs.as_ptr(),
            theirs.len(),
            scratch.as_mut_ptr(),
            scratch.len(),
        )
    }
}

/// The prize call on slices: its word.
pub fn prize_in(set: &[u8], plan: &[u8], purse: u64, shares: &[u32], out: &mut [i64], scratch: &mut [u64]) -> u64 {
    // As in `report_in`.
    unsafe {
        club_prize(
            set.as_ptr(),
            set.len(),
            plan.as_ptr(),
            plan.len(),
            purse,
            shares.as_ptr(),
            shares.len(),
            out.as_mut_ptr(),
            out.len(),
            scratch.as_mut_ptr(),
            scratch.len(),
        )
    }
}

/// The converter's call of a way on slices: its word.
pub fn convert_in(way: Way, set: &[u8], plan: &[u8], out_set: &mut [u8], out_plan: &mut [u8]) -> u64 {
    let call: Convert = match way {
        Way::Up => club_convert_up,
        Way::Down => club_convert_down,
    };
    // As in `report_in`.
    unsafe {
        call(
            set.as_ptr(),
            set.len(),
            plan.as_ptr(),
            plan.len(),
            out_set.as_mut_ptr(),
            out_set.len(),
            out_plan.as_mut_ptr(),
            out_plan.len(),
        )
    }
}

/// The steps by which the archive unnests a plan that it accepts.
pub fn steps(set: &[u8], plan: &[u8], scratch_cells: usize) -> Vec<(u8, u8)> {
    let (mut out_plan, mut out_steps, mut scratch) = ([0; LARGEST_PLAN], [0; 384], vec![0; scratch_cells]);
    let word = unnest_in(set, plan, &mut out_plan, &mut out_steps, &mut scratch);
    assert_eq!(word & 0xff, 0, "a plan that is accepted");
    let count = (word >> 8 & 0xffff) as usize;
    whole_steps(&out_steps[..2 * count])
}

/// A buffer between canaries. All of it is noise at first, or what it was given.
pub struct Lent<T> {
    all: Vec<T>,
    before: Vec<T>,
    front: usize,
    length: usize,
}

impl<T: Copy + PartialEq> Lent<T> {
    /// A buffer of so many elements of noise.
    fn of_noise(random: &mut Random, length: usize, noise: fn(u64) -> T) -> Lent<T> {
        // The front varies so that bytes lie at odd addresses too.
        let front = random.between(5, 20);
        let all: Vec<T> = (0..front + length + 16).map(|_| noise(random.bits())).collect();
        Lent { before: all.clone(), all, front, length }
    }

    /// A buffer with this content.
    fn with(random: &mut Random, content: &[T], noise: fn(u64) -> T) -> Lent<T> {
        let mut lent = Lent::of_noise(random, content.len(), noise);
        lent.all[lent.front..lent.front + lent.length].copy_from_slice(content);
        lent.before = lent.all.clone();
        lent
    }

    /// The buffer itself, to be lent.
    fn lend(&mut self) -> &mut [T] {
        &mut self.all[self.front..self.front + self.length]
    }

    /// Checks that all in front of the buffer is as it was, and all from an element of it on.
    fn kept_from(&self, name: &str, element: usize) -> Result<(), String> {
        let from = self.front + element;
        if self.all[..self.front] != self.before[..self.front] {
            return Err(format!("{name} written in front of its start"));
        }
        let end = self.front + self.length;
        if self.all[end..] != self.before[end..] {
            return Err(format!("{name} written past its end"));
        }
        if self.all[from..] != self.before[from..] {
            return Err(format!("{name} changed past element {element}"));
        }
        Ok(())
    }

    /// The buffer itself.
    fn content(&self) -> &[T] {
        &self.all[self.front..self.front + self.length]
    }
}

impl Lent<u64> {
    /// Checks scratch: untouched after 1 to 14, all zero after every other end.
    fn left_as_promised(&self, refusal: u64) -> Result<(), String> {
        if (1..=14).contains(&refusal) {
            return self.kept_from("scratch", 0);
        }
        if self.content().iter().any(|&cell| cell != 0) {
            return Err("scratch not zero".to_string());
        }
        self.kept_from("scratch", self.length)
    }
}

/// The set and the plan of a call.
struct Input {
    set: Lent<u8>,
    plan: Lent<u8>,
}

impl Input {
    fn new(random: &mut Random, set: &[u8], plan: &[u8]) -> Input {
        Input { set: Lent::with(random, set, byte), plan: Lent::with(random, plan, byte) }
    }

    /// Checks that neither was written to.
    fn kept(&self) -> Result<(), String> {
        self.set.kept_from("set", 0)?;
        self.plan.kept_from("plan", 0)
    }
}

fn byte(bits: u64) -> u8 {
    bits as u8
}

fn code(bits: u64) -> i64 {
    bits as i64
}

fn share(bits: u64) -> u32 {
    bits as u32
}

/// A cell of noise, never 0, so that a cell that was not cleared shows.
fn cell(bits: u64) -> u64 {
    bits | 1
}

/// The reporting call: its word, and the codes that it wrote, so many as it says. Anything else that it wrote is an error.
pub fn report(
    random: &mut Random,
    set: &[u8],
    plan: &[u8],
    out_cells: usize,
    scratch_cells: usize,
) -> Result<(u64, Vec<i64>), String> {
    let input = Input::new(random, set, plan);
    let mut out = Lent::of_noise(random, out_cells, code);
    let mut scratch = Lent::of_noise(random, scratch_cells, cell);
    let word = report_in(input.set.content(), input.plan.content(), out.lend(), scratch.lend());
    input.kept()?;
    scratch.left_as_promised(word & 0xff)?;
    let written = (word >> 8 & 0xff) as usize * (word >> 16) as usize;
    if written > out_cells {
        return Err(format!("word {word:#x} tells of more cells than there is room for"));
    }
    out.kept_from("output", written)?;
    Ok((word, out.content()[..written].to_vec()))
}

/// The unnesting call: its word, and the plan and step bytes that it wrote, so many as it says.
pub fn unnest(
    random: &mut Random,
    set: &[u8],
    plan: &[u8],
    out_plan_bytes: usize,
    out_step_bytes: usize,
    scratch_cells: usize,
) -> Result<(u64, Vec<u8>, Vec<u8>), String> {
    let input = Input::new(random, set, plan);
    let mut out_plan = Lent::of_noise(random, out_plan_bytes, byte);
    let mut out_steps = Lent::of_noise(random, out_step_bytes, byte);
    let mut scratch = Lent::of_noise(random, scratch_cells, cell);
    let word = unnest_in(input.set.content(), input.plan.content(), out_plan.lend(), out_steps.lend(), scratch.lend());
    input.kept()?;
    scratch.left_as_promised(word & 0xff)?;
    let (steps, bytes) = (2 * (word >> 8 & 0xffff) as usize, (word >> 24) as usize);
    if steps > out_step_bytes || bytes > out_plan_bytes {
        return Err(format!("word {word:#x} tells of more bytes than there is room for"));
    }
    out_plan.kept_from("plan output", bytes)?;
    out_steps.kept_from("step output", steps)?;
    Ok((word, out_plan.content()[..bytes].to_vec(), out_steps.content()[..steps].to_vec()))
}

/// The stay note call: its word.
pub fn stay_note(
    random: &mut Random,
    set: &[u8],
    plan: &[u8],
    place: usize,
    scratch_cells: usize,
) -> Result<u64, String> {
    let input = Input::new(random, set, plan);
    let mut scratch = Lent::of_noise(random, scratch_cells, cell);
    let word = stay_note_in(input.set.content(), input.plan.content(), place, scratch.lend());
    input.kept()?;
    scratch.left_as_promised(word & 0xff)?;
    Ok(word)
}

/// The checking call: its word.
pub fn check_steps(
    random: &mut Random,
    set: &[u8],
    plan: &[u8],
    steps: &[u8],
    theirs: &[u8],
    scratch_cells: usize,
) -> Result<u64, String> {
    let input = Input::new(random, set, plan);
    let (steps, theirs) = (Lent::with(random, steps, byte), Lent::with(random, theirs, byte));
    let mut scratch = Lent::of_noise(random, scratch_cells, cell);
    let word =
        check_steps_in(input.set.content(), input.plan.content(), steps.content(), theirs.content(), scratch.lend());
    input.kept()?;
    steps.kept_from("steps", 0)?;
    theirs.kept_from("theirs", 0)?;
    scratch.left_as_promised(word & 0xff)?;
    Ok(word)
}

/// The prize call: its word, and the cells that it wrote, two for each row that it says.
pub fn prize(
    random: &mut Random,
    set: &[u8],
    plan: &[u8],
    fund: &Fund,
    out_cells: usize,
    scratch_cells: usize,
) -> Result<(u64, Vec<i64>), String> {
    let input = Input::new(random, set, plan);
    let shares = Lent::with(random, &fund.shares, share);
    let mut out = Lent::of_noise(random, out_cells, code);
    let mut scratch = Lent::of_noise(random, scratch_cells, cell);
    let (set, plan) = (input.set.content(), input.plan.content());
    let word = prize_in(set, plan, fund.purse, shares.content(), out.lend(), scratch.lend());
    input.kept()?;
    shares.kept_from("shares", 0)?;
    scratch.left_as_promised(word & 0xff)?;
    let written = 2 * (word >> 8 & 0xffff) as usize;
    if written > out_cells {
        return Err(format!("word {word:#x} tells of more cells than there is room for"));
    }
    out.kept_from("output", written)?;
    Ok((word, out.content()[..written].to_vec()))
}

/// The converter's call of a way: its word, and the set and plan bytes that it wrote, so many as it says.
pub fn convert(
    random: &mut Random,
    way: Way,
    set: &[u8],
    plan: &[u8],
    out_set_bytes: usize,
    out_plan_bytes: usize,
) -> Result<(u64, Vec<u8>, Vec<u8>), String> {
    let input = Input::new(random, set, plan);
    let mut out_set = Lent::of_noise(random, out_set_bytes, byte);
    let mut out_plan = Lent::of_noise(random, out_plan_bytes, byte);
    let word = convert_in(way, input.set.content(), input.plan.content(), out_set.lend(), out_plan.lend());
    input.kept()?;
    let (plan_bytes, set_bytes) = ((word >> 8 & 0xffff) as usize, (word >> 24) as usize);
    if set_bytes > out_set_bytes || plan_bytes > out_plan_bytes {
        return Err(format!("word {word:#x} tells of more bytes than there is room for"));
    }
    out_set.kept_from("set output", set_bytes)?;
    out_plan.kept_from("plan output", plan_bytes)?;
    Ok((word, out_set.content()[..set_bytes].to_vec(), out_plan.content()[..plan_bytes].to_vec()))
}
