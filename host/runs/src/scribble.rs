//! Rounds in which a card writes into two images while callers use them, as threads, or as processes that are begun again after a
//! trap.

use crate::board::{Board, CALLS, NAMES};
use crate::clocks::now;
use crate::rng::Rng;
use crate::shared_calls::Caller;
use crate::shared_world::{Kind, World};
use crate::traps::{i_am, images_at, leave, TRAPPED};
use std::ffi::c_int;
use std::sync::atomic::Ordering::Relaxed;
use std::time::{Duration, Instant};

extern "C" {
    fn fork() -> c_int;
    fn waitpid(process: c_int, status: *mut c_int, options: c_int) -> c_int;
    fn kill(process: c_int, signal: c_int) -> c_int;
}

const DO_NOT_WAIT: c_int = 1;
const SIGKILL: c_int = 9;
/// A call that takes longer than this is taken to hang.
const HANGS_AFTER: Duration = Duration::from_secs(20);

// The place of the move down among the names.
const PREV: usize = 20;

/// What a run is asked for.
#[derive(Clone, Copy)]
pub struct Plan {
    pub seed: u64,
    pub callers: usize,
}

impl Plan {
    fn rng(&self, round: u64, who: u64) -> Rng {
        Rng::new(self.seed ^ (round << 32) ^ (who << 20))
    }
}

fn hangs(board: &Board) -> Option<String> {
    let (slot, which) = board.hanging(now(), HANGS_AFTER.as_nanos() as u64)?;
    let seconds = HANGS_AFTER.as_secs();
    Some(format!(
        "{} of caller {slot} has not returned for {seconds} seconds",
        NAMES[which]
    ))
}

/// Ends the run when a call hangs.
pub fn watch(board: &'static Board) {
    std::thread::spawn(move || loop {
        std::thread::sleep(Duration::from_millis(200));
        if let Some(hangs) = hangs(board) {
            println!("{hangs}");
            std::process::exit(1);
        }
    });
}

fn play_card(world: &World, board: &Board, mut rng: Rng) {
    while !board.stop.load(Relaxed) {
        let target = rng.below(2);
        world.targets[target].step(&mut rng);
    }
}

fn play_caller(world: &World, board: &Board, slot: usize, rng: Rng) {
    i_am(slot);
    Caller::new(world, board, slot, rng).run();
}

/// A round of threads. A trap ends the process.
pub fn threads(plan: Plan, round: u64, world: &World, board: &'static Board, time: Duration) {
    images_at(world.places());
    board.stop.store(false, Relaxed);
    std::thread::scope(|scope| {
        scope.spawn(|| play_card(world, board, plan.rng(round, 99)));
        for slot in 0..plan.callers {
            let rng = plan.rng(round, slot as u64);
            scope.spawn(move || play_caller(world, board, slot, rng));
        }
        std::thread::sleep(time);
        board.stop.store(true, Relaxed);
    });
}

// Runs a part in a process of its own.
fn forked(part: impl FnOnce()) -> c_int {
    // SAFETY: this process has one thread, so the new one may do all that this one may.
    let process = unsafe { fork() };
    assert!(process >= 0, "no process can be forked");
    if process == 0 {
        part();
        leave(0);
    }
    process
}

// The status that a process ended with, if it has ended. One that was waited for before has none any more, and 0 stands for it.
fn ended(process: c_int, options: c_int) -> Option<c_int> {
    let mut status = 0;
    // SAFETY: a process that this one has forked.
    let waited = unsafe { waitpid(process, &mut status, options) };
    (waited != 0).then_some(status)
}

// Begins every caller again that ended by a trap; what else went wrong is the answer.
fn tend(
    plan: Plan,
    round: u64,
    world: &World,
    board: &'static Board,
    processes: &mut [c_int],
    begun: &mut u64,
) -> Option<String> {
    for (slot, process) in processes.iter_mut().enumerate() {
        let Some(status) = ended(*process, DO_NOT_WAIT) else {
            continue;
        };
        if status != TRAPPED << 8 {
            return Some(format!("caller {slot} ended with the status {status}"));
        }
        *begun += 1;
        let rng = plan.rng(round, 100 + *begun);
        *process = forked(|| play_caller(world, board, slot, rng));
    }
    None
}

/// A round of processes; a caller that traps is begun again. Answers what went wrong besides traps.
pub fn processes(plan: Plan, round: u64, world: &World, board: &'static Board, time: Duration) -> Option<String> {
    images_at(world.places());
    board.stop.store(false, Relaxed);
    let card = forked(|| play_card(world, board, plan.rng(round, 99)));
    let caller = |slot| forked(|| play_caller(world, board, slot, plan.rng(round, slot as u64)));
    let mut callers: Vec<c_int> = (0..plan.callers).map(caller).collect();
    let (begin, mut begun, mut wrong) = (Instant::now(), 0, None);
    while begin.elapsed() < time && wrong.is_none() {
        std::thread::sleep(Duration::from_micros(200));
        wrong = tend(plan, round, world, board, &mut callers, &mut begun).or_else(|| hangs(board));
    }
    board.stop.store(true, Relaxed);
    let patience = Instant::now();
    for process in callers.into_iter().chain([card]) {
        let status = loop {
            if let Some(status) = ended(process, DO_NOT_WAIT) {
                break status;
            }
            if patience.elapsed() > HANGS_AFTER {
                wrong = wrong.or_else(|| hangs(board));
                // SAFETY: a process that this one has forked, and that has not been waited for.
                unsafe { kill(process, SIGKILL) };
            }
            std::thread::sleep(Duration::from_micros(200));
        };
        if status != 0 && status != TRAPPED << 8 {
            wrong = wrong.or_else(|| Some(format!("a process ended with the status {status}")));
        }
    }
    wrong
}

// Images that stay as they are: the ones with the longest searches and moves, and damaged ones.
fn still_worlds(rng: &mut Rng) -> Vec<World> {
    let low = World::new([Kind::Low, Kind::Low], rng);
    let mut deserted = World::new([Kind::Deserted, Kind::Deserted], rng);
    deserted.keys = vec![Vec::new()];
    let mut worlds = vec![low, deserted];
    for _ in 0..6 {
        let bytes = [Kind::Low, Kind::Large].map(|kind| {
            let mut image = kind.sound(rng).into_boxed_slice();
            for _ in 0..rng.between(1, 30) {
                crate::harm::harm(&mut image, rng);
            }
            image.into_vec()
        });
        worlds.push(World::of(bytes, [false, true], rng));
    }
    worlds
}

/// The longest processor time of each call on bytes that stay, in nanoseconds.
pub fn worst_on_still_bytes(plan: Plan, board: &'static Board, time: Duration) -> [u64; CALLS] {
    let mut rng = plan.rng(0, 98);
    i_am(0);
    let worlds = still_worlds(&mut rng);
    for world in &worlds {
        images_at(world.places());
        let mut caller = Caller::new(world, board, 0, rng.clone());
        for _ in 0..6 {
            (1..CALLS).for_each(|which| caller.call(which));
            caller.go_to_last();
            caller.call(PREV);
        }
        let begin = Instant::now();
        while begin.elapsed() < time / worlds.len() as u32 {
            caller.any();
        }
        caller.call(0);
    }
    board.take_slowest()
}
