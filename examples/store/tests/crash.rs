// SPDX-License-Identifier: Apache-2.0
//! The short form of the crash tests. `store crash COUNT` is the long one.

use store::crash::Trial;

fn run(trial: Trial) -> u64 {
    trial.run().unwrap_or_else(|what| panic!("{what}"))
}

/// A short run with orderly closings, checkpoints and batches, broken off at each call in turn.
#[test]
fn at_each_call_of_a_short_run() {
    let trial = Trial {
        seed: 1,
        threads: 1,
        lives: 2,
        steps: 60,
        first_failure: Some(u64::MAX),
    };
    let calls = run(trial);
    assert!(calls > 100, "{calls}");
    for call in 1..=calls {
        run(Trial {
            first_failure: Some(call),
            ..trial
        });
    }
}

/// Five hundred lives, each broken off once, and its recovery once more or twice.
#[test]
fn at_points_by_chance() {
    for seed in 0..167 {
        run(Trial {
            seed,
            threads: 1,
            lives: 3,
            steps: 100,
            first_failure: None,
        });
    }
}

#[test]
fn with_threads() {
    for seed in 0..40 {
        run(Trial {
            seed,
            threads: 4,
            lives: 2,
            steps: 60,
            first_failure: None,
        });
    }
}
