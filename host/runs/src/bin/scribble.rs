// Calls on images that a card writes to at the same time.
//   scribble [--seconds N] [--seed N|clock] [--callers N] [--count-traps] [--only CALL]
// The first trap, answer out of its bounds or hanging call ends the run. With --count-traps every caller is a process, which is
// begun again after a trap, and the run counts.
use runs::args::Args;
use runs::board::{Board, Tally, CALLS, MOST_CALLERS, NAMES};
use runs::rng::Rng;
use runs::scribble::{processes, threads, watch, worst_on_still_bytes, Plan};
use runs::shared_world::{World, ROUNDS};
use runs::traps;
use std::sync::atomic::{AtomicU64, Ordering::Relaxed};
use std::time::{Duration, Instant};

const ROUND: Duration = Duration::from_millis(250);

fn millis(nanos: u64) -> f64 {
    nanos as f64 / 1e6
}

// What a call may take while the card writes: generous, since a bound in looks is what is promised.
fn bound(still: u64) -> u64 {
    20 * still + 50_000_000
}

fn rounds(plan: Plan, board: &'static Board, time: Duration, counting: bool) -> Option<String> {
    let begin = Instant::now();
    for round in 0.. {
        if begin.elapsed() >= time {
            println!(
                "{round} rounds of {} ms, {} caller(s) beside the card",
                ROUND.as_millis(),
                plan.callers
            );
            break;
        }
        let mut rng = Rng::new(plan.seed ^ (round << 8));
        let world = World::new(ROUNDS[round as usize % ROUNDS.len()], &mut rng);
        let wrong = match counting {
            true => processes(plan, round, &world, board, ROUND),
            false => {
                threads(plan, round, &world, board, ROUND);
                None
            }
        };
        if let Some(wrong) = wrong
            .or_else(|| world.changed_outside(0))
            .or_else(|| world.changed_outside(1))
        {
            return Some(format!("round {round}: {wrong}"));
        }
    }
    None
}

// The table, and what is wrong with it, in the order of weight.
fn report(board: &Board, still: &[u64; CALLS]) -> Option<String> {
    println!(
        "{:<20} {:>10} {:>10} {:>10} {:>8} {:>8} {:>8} {:>12} {:>12}",
        "call", "made", "given", "refused", "traps", "off", "outside", "still, ms", "longest, ms"
    );
    let (mut wrong, mut late) = ([0; 3], None);
    for (which, name) in NAMES.iter().enumerate() {
        let sum = |field: fn(&Tally) -> &AtomicU64| board.sum(which, |tally| field(tally).load(Relaxed));
        let (given, refused) = (sum(|tally| &tally.given), sum(|tally| &tally.refused));
        let [traps, off, outside] = [sum(|t| &t.traps), sum(|t| &t.off), sum(|t| &t.outside)];
        let (made, slowest, most) = (given + refused + traps, board.slowest(which), bound(still[which]));
        println!(
            "{name:<20} {made:>10} {given:>10} {refused:>10} {traps:>8} {off:>8} {outside:>8} {:>12.3} {:>12.3}",
            millis(still[which]),
            millis(slowest)
        );
        wrong = [wrong[0] + traps, wrong[1] + off, wrong[2] + outside];
        if slowest > most {
            let (took, most) = (millis(slowest), millis(most));
            late = Some(format!("{name} took {took:.1} ms, {most:.1} are allowed"));
        }
    }
    let [traps, off, outside] = wrong;
    match wrong {
        [0, 0, 0] => late,
        _ => Some(format!(
            "{traps} traps, {off} answers out of their bounds, {outside} calls that changed a byte outside"
        )),
    }
}

// The place of a call, one more than among the names; 0 for all.
fn only(args: &Args) -> u32 {
    let Some(wanted) = args.text("--only") else { return 0 };
    let place = NAMES.iter().position(|name| *name == wanted);
    let Some(place) = place else {
        eprintln!("--only wants one of {NAMES:?}, not {wanted:?}");
        std::process::exit(2);
    };
    place as u32 + 1
}

fn main() {
    let args = Args::new();
    let seconds = args.number("--seconds", 3);
    let counting = args.has("--count-traps");
    let callers = args.number("--callers", 1).clamp(1, MOST_CALLERS as u64) as usize;
    let plan = Plan {
        seed: args.seed(),
        callers,
    };
    println!("seed {}", plan.seed);
    let board = Board::shared();
    traps::catch(board);
    // Where processes are forked there may be no other thread; the rounds watch for themselves then.
    if !counting {
        watch(board);
    }
    let still = worst_on_still_bytes(plan, board, Duration::from_secs(seconds) / 4);
    board.counting.store(counting, Relaxed);
    board.only.store(only(&args), Relaxed);
    let wrong = rounds(plan, board, Duration::from_secs(seconds), counting);
    let wrong = wrong.or(report(board, &still));
    match wrong {
        None => println!(
            "no trap, no byte outside changed; every call within 20 times its longest on still bytes plus 50 ms"
        ),
        Some(wrong) => {
            println!("{wrong}");
            std::process::exit(1);
        }
    }
}
