//! Every line of the lists of documents 000 (its appendix A) and 001 (its appendix I), run on the proved library
//! and on the reference.

use reference::lea;
use shared::lists::{all, List};
use shared::version::{Version, PROVED, REFERENCE};

/// Which list it is.
fn name(list: &List) -> String {
    format!("schedule {}, {:?}", list.schedule, list.size)
}

/// Runs a check on each list with each version.
fn on_both(check: fn(&List, &Version)) {
    for list in all() {
        for version in [&PROVED, &REFERENCE] {
            check(&list, version);
        }
    }
}

#[test]
fn the_lists_are_whole() {
    for list in all() {
        let (first, last) = (list.states[0], *list.states.last().unwrap());
        assert_eq!(lea::block(first), list.plain, "{}", name(&list));
        assert_eq!(lea::block(last), list.cipher, "{}", name(&list));
    }
}

/// Within the lists themselves: a state and the row beside it give the next state, and back.
#[test]
fn each_state_follows_from_the_one_before() {
    for list in all() {
        for (i, row) in list.rows.iter().enumerate() {
            let (old, new) = (list.states[i], list.states[i + 1]);
            assert_eq!(lea::forward(&[*row], old), new, "{} X{i}", name(&list));
            assert_eq!(lea::backward(&[*row], new), old, "{} X{i}", name(&list));
        }
    }
}

#[test]
fn round_keys() {
    on_both(|list, version| {
        for (i, row) in list.rows.iter().enumerate() {
            let got = (version.round_keys)(list.schedule, &list.key, i);
            assert_eq!(got, Ok(*row), "{}, {} RK{i}", version.name, name(list));
        }
    });
}

#[test]
fn states_after_each_round() {
    on_both(|list, version| {
        for (i, x) in list.states.iter().enumerate() {
            let got = (version.first_rounds)(list.schedule, &list.key, i, &list.plain);
            let want = Ok(lea::block(*x));
            assert_eq!(got, want, "{}, {} X{i}", version.name, name(list));
        }
    });
}

#[test]
fn enciphering() {
    on_both(|list, version| {
        let got = (version.encipher)(list.schedule, &list.key, &list.plain);
        assert_eq!(got, Ok(list.cipher), "{}, {}", version.name, name(list));
    });
}

#[test]
fn deciphering() {
    on_both(|list, version| {
        let got = (version.decipher)(list.schedule, &list.key, &list.cipher);
        assert_eq!(got, Ok(list.plain), "{}, {}", version.name, name(list));
    });
}
