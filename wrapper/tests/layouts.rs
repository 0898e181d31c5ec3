//! What a state holds of a layout, what each reading compares, and carrying.

mod lent;

use koftabasin::{McError, McState};
use lent::{LAYOUTS, Lent, every_held, first, held, history_bits, pattern_bits};

/// A state with patterns of all kinds and three accepted frames.
fn patterned(layout_len: u8, layout: u8) -> McState {
    McState::with(
        pattern_bits().map(f64::from_bits),
        layout_len,
        layout,
        first(3),
    )
}

/// By the length under either reading, and by the layout under reading 2.
#[test]
fn changed_layout_stores_the_history() {
    for (reading, layout_len, layout) in [(1, 5, 0), (1, 5, 32), (2, 5, 0), (2, 5, 32), (2, 2, 11)]
    {
        let mut lent = Lent::smallest();
        lent.reading = reading;
        let mut state = McState::with([0.5; 576], layout_len, layout, first(3));
        assert_eq!(lent.decode(&mut state), Err(McError::ConfigChanged));
        assert!(lent.untouched());
        assert_eq!(held(&state), (layout_len, layout, 3));
        assert_eq!((state.history()[0], state.history()[575]), (-1.0, 2.0));
    }
}

/// Under reading 2 alone; a frame under reading 1 leaves what is held.
#[test]
fn each_layout_is_stored() {
    for (layout, layout_len) in LAYOUTS {
        let mut state = McState::new();
        assert!(Lent::of_layout(layout, 1).decode(&mut state).is_ok());
        assert_eq!(held(&state), (layout_len, 0, 1));
        assert!(Lent::of_layout(layout, 2).decode(&mut state).is_ok());
        assert_eq!(held(&state), (layout_len, layout, 2));
        assert!(Lent::of_layout(layout, 1).decode(&mut state).is_ok());
        assert_eq!(held(&state), (layout_len, layout, 3));
    }
}

/// 3/1, then 2/2, both of four channels, under readings in turn; at the end after carrying.
#[test]
fn layouts_of_one_length() {
    let mut state = McState::new();
    let next = |layout, reading, state: &mut McState| {
        let answer = Lent::of_layout(layout, reading).decode(state);
        (answer.map(|used| used.head_bits), held(state))
    };
    let changed = Err(McError::ConfigChanged);
    assert_eq!(next(31, 1, &mut state), (Ok(38), (4, 0, 1)));
    assert_eq!(next(22, 1, &mut state), (Ok(37), (4, 0, 2)));
    assert_eq!(next(31, 2, &mut state), (Ok(38), (4, 31, 3)));
    assert_eq!(next(22, 2, &mut state), (changed, (4, 31, 3)));
    assert_eq!(next(22, 1, &mut state), (Ok(37), (4, 31, 4)));
    assert_eq!(next(22, 2, &mut state), (changed, (4, 31, 4)));
    assert_eq!(state.carry(), Ok(()));
    assert_eq!(held(&state), (4, 0, 4));
    assert_eq!(next(32, 2, &mut state), (changed, (4, 0, 4)));
    assert_eq!(next(22, 2, &mut state), (Ok(37), (4, 22, 5)));
    assert_eq!(next(31, 2, &mut state), (changed, (4, 22, 5)));
}

/// Refused under either reading, before a wild value is; the state stays.
#[test]
fn wrong_states() {
    for (layout_len, layout) in [
        (6, 0),
        (255, 0),
        (4, 34),
        (2, 255),
        (0, 20),
        (5, 31),
        (4, 30),
    ] {
        for reading in [1, 2] {
            let (mut lent, mut state) = (Lent::smallest(), patterned(layout_len, layout));
            lent.reading = reading;
            assert_eq!(lent.decode(&mut state), Err(McError::InvalidArgument));
            assert!(lent.untouched());
            assert_eq!(held(&state), (layout_len, layout, 3));
            assert_eq!(history_bits(&state), pattern_bits());
        }
    }
}

/// Nothing held, a lone length, and each layout with its length; every other pair is refused and stays.
#[test]
fn carrying_keeps_all_but_the_layout() {
    for (layout_len, layout, right) in every_held() {
        let (answer, kept) = match right {
            true => (Ok(()), 0),
            false => (Err(McError::InvalidArgument), layout),
        };
        let mut state = patterned(layout_len, layout);
        assert_eq!(state.carry(), answer);
        assert_eq!(held(&state), (layout_len, kept, 3));
        assert_eq!(history_bits(&state), pattern_bits());
    }
}

/// After carrying nothing, any layout follows; history and counter stay.
#[test]
fn carried_state_without_a_length_is_as_a_fresh_one() {
    for (layout, layout_len) in LAYOUTS {
        let mut state = McState::with([0.5; 576], 0, 0, first(7));
        assert_eq!(state.carry(), Ok(()));
        assert_eq!(history_bits(&state), [0.5f64.to_bits(); 576]);
        assert!(Lent::of_layout(layout, 2).decode(&mut state).is_ok());
        assert_eq!(held(&state), (layout_len, layout, 8));
    }
}
