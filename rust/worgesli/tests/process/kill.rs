//! Processes that are killed.
use crate::world::{Far, Temporary, STEPS};
use device::Width;

/// Killed behind each step in turn: the next process finishes, and the files are right.
#[test]
fn killed_behind_each_step() {
    for width in Width::BOTH {
        for steps in 0.. {
            let (far, folder) = (Far::new(width, steps), Temporary::new());
            let first = far.process(&folder.0, &[(STEPS, steps.to_string())]);
            if first.is_none() {
                assert_eq!(far.process(&folder.0, &[]), Some(0), "behind {steps} steps, {width:?}");
            }
            far.assert_whole(&folder.0);
            far.end();
            if first.is_some() {
                assert!(first == Some(0) && steps > 25, "{first:?} behind {steps} steps, {width:?}");
                break;
            }
        }
    }
}

/// A process for each step.
#[test]
fn a_process_for_each_step() {
    for width in Width::BOTH {
        let (far, folder) = (Far::new(width, 5), Temporary::new());
        let mut killed = 0;
        while far.process(&folder.0, &[(STEPS, "1".to_string())]).is_none() {
            killed += 1;
        }
        assert!(killed > 25, "{killed}");
        far.assert_whole(&folder.0);
        far.end();
    }
}
