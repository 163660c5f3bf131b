//! Random runs of watched feeders: takes, returns and deliveries in order, with spells in which
//! some posts are not heard, bursts, drains, and calls that are no part of the run.

use super::one_call::{self, Call};
use super::summary::Summary;
use super::watched::Watched;
use super::{ensure, stray, table, Check};
use crate::queue::{Phase, Queue};
use crate::random::Random;
use crate::refusal::number;

/// Runs random feeders until at least so many calls are made.
pub fn check(seed: u64, calls: u64) -> Result<Summary, String> {
    let mut random = Random::new(seed);
    let mut summary = Summary::default();
    while summary.calls < calls {
        summary.runs += 1;
        let checked = start_at_random(&mut random, &mut summary)
            .and_then(|()| run(&mut random, &mut summary));
        checked.map_err(|what| {
            let (run, step) = (summary.runs, summary.calls);
            format!("seed {seed} run {run} after step {step}: {what}")
        })?;
    }
    Ok(summary)
}

/// Starts a post with any numbers; one refused has to refuse everything after.
fn start_at_random(random: &mut Random, summary: &mut Summary) -> Check {
    let edges = [0, 1, 2, 15, 16, 17, 255];
    let [posts, own, places] = [(); 3].map(|()| random.one_of(&edges));
    let (mut post, answer) = Queue::start(posts, own, random.byte(), places);
    let number = number(&answer);
    ensure(number == table::start(posts, own, places), || {
        format!("start {posts} {own} {places} gave {number}")
    })?;
    summary.count(number);
    if answer.is_err() {
        for call in [Call::Take, Call::Return, Call::Receive(vec![])] {
            let outcome = one_call::make(&mut post, &[], &call, random.below(14))?;
            summary.count(outcome.number);
        }
        ensure(post.value().is_err() && post.missing().is_err(), || {
            "an inquiry answered after a refused start".to_string()
        })?;
    }
    Ok(())
}

fn run(random: &mut Random, summary: &mut Summary) -> Check {
    // Small feeders see most: more of what is sent comes to rest within a run.
    let most_posts = random.one_of(&[4, 4, 8, 16]);
    let posts = random.between(1, most_posts);
    let most_places = random.one_of(&[1, 3, 16]);
    let places = random.between(1, most_places) as u8;
    let mut feeder = Watched::start(summary, posts, random.byte(), places)?;
    // Where there are more posts, more calls pass before one take is known to all.
    let mut steps_left = match posts {
        1 => 100,
        _ => random.between(100, 600) * (1 + posts / 4),
    };
    while steps_left > 0 {
        let spell = Spell::new(random, posts, steps_left);
        for _ in 0..spell.steps {
            step(random, &mut feeder, &spell)?;
        }
        steps_left -= spell.steps;
        if random.chance(10) {
            drain(random, &mut feeder)?;
        }
    }
    if random.chance(50) {
        finish(random, &mut feeder)?;
    }
    Ok(())
}

/// How the feeder behaves for a while.
struct Spell {
    posts: usize,
    steps: usize,
    /// One step in so many is a take or return, where something could be delivered.
    busy: usize,
    /// mute[p][q]: nothing of p comes to q.
    mute: Vec<Vec<bool>>,
}

impl Spell {
    fn new(random: &mut Random, posts: usize, steps_left: usize) -> Spell {
        let mut mute = vec![vec![false; posts]; posts];
        let one = random.below(posts);
        match random.below(6) {
            // One post is not heard by any other.
            0 => mute[one].fill(true),
            // One post hears nothing.
            1 => mute.iter_mut().for_each(|row| row[one] = true),
            // A few posts are not heard by one, so that what the others send waits there.
            2..=4 => {
                for _ in 0..random.between(1, 3) {
                    mute[random.below(posts)][one] = true;
                }
            }
            _ => {}
        }
        Spell {
            posts,
            steps: random.between(1, steps_left.min(200 * (1 + posts / 4))),
            busy: random.between(1, posts * posts),
            mute,
        }
    }
}

fn step(random: &mut Random, feeder: &mut Watched, spell: &Spell) -> Check {
    if random.chance(4) {
        let post = random.below(spell.posts);
        let calls: Vec<(Call, usize)> = (0..random.between(1, 6))
            .map(|_| stray::call(random, feeder.post(post), feeder.sent()))
            .collect();
        return feeder.stray(post, &calls);
    }
    if random.chance(2) {
        feeder.some_delivery_is_accepted()?;
    }
    let mut pending = feeder.pending();
    pending.retain(|&(p, q)| !spell.mute[p][q]);
    if pending.is_empty() || random.below(spell.busy) == 0 {
        take_or_return(random, feeder, spell.posts)
    } else {
        let (p, q) = random.one_of(&pending);
        feeder.deliver(p, q).map(|_| ())
    }
}

/// Mostly a post that is idle or holds, and mostly the call that its phase allows.
fn take_or_return(random: &mut Random, feeder: &mut Watched, posts: usize) -> Check {
    let free = feeder.in_phase(&[Phase::Idle, Phase::Holding]);
    let post = if random.chance(5) {
        random.below(posts)
    } else if free.is_empty() {
        return Ok(());
    } else {
        random.one_of(&free)
    };
    let holds = feeder.post(post).phase() == Phase::Holding;
    let is_wrong = random.chance(5);
    if holds != is_wrong {
        feeder.give_back(post).map(|_| ())
    } else {
        feeder.take(post).map(|_| ())
    }
}

/// Delivers until nothing is on the way; each round has to bring something.
fn drain(random: &mut Random, feeder: &mut Watched) -> Check {
    loop {
        let mut pending = feeder.pending();
        if pending.is_empty() {
            return Ok(());
        }
        let mut is_any_accepted = false;
        while !pending.is_empty() {
            let (p, q) = pending.swap_remove(random.below(pending.len()));
            is_any_accepted |= feeder.deliver(p, q)? == 0;
        }
        ensure(is_any_accepted, || {
            "nothing on the way is accepted".to_string()
        })?;
    }
}

/// Drains, has every holder return, and so on until nobody holds.
fn finish(random: &mut Random, feeder: &mut Watched) -> Check {
    loop {
        drain(random, feeder)?;
        let holders = feeder.in_phase(&[Phase::Holding]);
        if holders.is_empty() {
            return feeder.all_is_over();
        }
        for holder in holders {
            let number = feeder.give_back(holder)?;
            ensure(number == 0, || format!("a holder's return gave {number}"))?;
        }
    }
}

#[cfg(test)]
mod tests {
    use super::*;

    #[test]
    fn a_short_check_meets_every_number() {
        let summary = check(1, 20_000).unwrap();
        assert!(summary.calls >= 20_000);
        assert!(summary.grants > 0 && summary.rests > 0);
        for (number, times) in summary.numbers.iter().enumerate() {
            assert!(*times > 0, "{number} never came up");
        }
    }
}
