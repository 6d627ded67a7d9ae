//! Clones that several threads share, write to and drop.

use ecow::{EcoBytes, EcoString, EcoTree, EcoVec, Value};
use std::sync::Arc;
use std::thread;

fn crosses<T: Send + Sync>() {}

#[test]
fn threads_share_clones() {
    crosses::<(EcoVec<String>, EcoString, EcoBytes, Value, ecow::vec::IntoIter<String>, ecow::vec::Drain<String>)>();
    crosses::<EcoTree<String>>();
    for round in 0..std::env::var("ROUNDS").ok().and_then(|rounds| rounds.parse().ok()).unwrap_or(300) {
        // It tells how many elements there are.
        let probe = Arc::new(());
        let first: EcoVec<(u64, Arc<()>)> = (0..20).map(|number| (number, probe.clone())).collect();
        let (text, value) = (EcoString::from("a text that is spilled, and so is shared"), Value::from([1, 2]));
        thread::scope(|scope| {
            for number in 0..4 {
                let (mut own, mut said, mut held) = (first.clone(), text.clone(), value.clone());
                let (seen, read, probe) = (&first, &text, &probe);
                scope.spawn(move || {
                    for _ in 0..5 {
                        let other = seen.clone();
                        assert_eq!(other.iter().map(|item| item.0).sum::<u64>(), 190);
                        own.push((number, probe.clone()));
                        let third = own.clone();
                        drop(other);
                        said.push('x');
                        held.push(said.clone()).unwrap();
                        assert!(said.starts_with(read.as_str()));
                        own = third;
                    }
                    assert_eq!((own.len(), held.len()), (25, 7));
                });
            }
        });
        drop(first);
        assert_eq!((Arc::strong_count(&probe), value.len()), (1, 2), "round {round}");
    }
}
