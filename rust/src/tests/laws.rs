//! Tests that each law takes concrete types. A law is a function whose contract, in the engine's sources, says what
//! always holds; nothing of it is left to run. Laws that a caller in `callers` relies on are called there.

use crate::engine::moka_engine::{
    DefaultHasher, FixedClock, IdSource, NoExpiry, NoListener, NoPredicate, NoWeigher, PredicateId,
};

/// Gives the same identifier each time.
struct OneId;

impl IdSource for OneId {
    fn next_id(&mut self) -> PredicateId {
        PredicateId::nil()
    }
}

/// Calls each of the laws with these types.
macro_rules! call_each {
    ([$($law:ident),* $(,)?] with $types:tt) => {
        $(call_each!(@ $law $types);)*
    };
    (@ $law:ident ($($type:ty),*)) => {
        $law::<$($type),*>()
    };
}

#[test]
fn of_the_states_of_the_reference_cache() {
    use crate::engine::moka_laws::laws::*;
    call_each!([removes_just_one, starts_valid] with (u8, char, NoExpiry, NoPredicate, NoWeigher));
    call_each!([admits_well] with (u8, char));
    call_each!(
        [
            gets_what_is_contained,
            peeks_quietly,
            drops_only_idle,
            removes_enough,
            removes_first,
            ends_exact,
            counts_nearly,
            runs_are_of_reference,
            runs_age_out,
            sends_after_run,
        ] with (u8, char, NoExpiry, NoPredicate, NoWeigher)
    );
}

#[test]
fn of_lists_of_calls_of_the_reference_cache() {
    use crate::engine::moka_laws::laws::*;
    call_each!(
        [
            stays_hidden,
            stays_valid,
            stays_in_order,
            tells_each_once,
            predicates_leave_idle,
            steps_are_of_reference,
            lists_are_of_reference,
            calls_keep_order,
            lists_keep_order,
        ] with (u8, char, NoExpiry, NoListener, NoPredicate, NoWeigher, FixedClock, OneId)
    );
    call_each!(
        [is_of_reference] with (u8, char, (), NoExpiry, NoListener, NoPredicate, NoWeigher, FixedClock, OneId)
    );
}

#[test]
fn of_the_calls_of_a_synchronous_cache() {
    use crate::engine::moka_calls::laws::*;
    call_each!(
        [
            goes_on,
            makes_one_step,
            made_anytime,
            keeps_promises,
            ages_out,
            hears_clones,
            hears_themselves,
            counts_removals,
        ] with (u8, char, (), NoExpiry, NoListener, NoPredicate, NoWeigher, FixedClock)
    );
    call_each!(
        [joins_registrations] with (u8, char, (), NoExpiry, NoListener, NoPredicate, NoWeigher, FixedClock, OneId)
    );
    call_each!([keeps_limits] with (u8, char, (), NoExpiry, NoListener, NoPredicate, NoWeigher, FixedClock, ()));
    call_each!([counts_look_ups] with (u8, char, NoPredicate, ()));
    call_each!([calls_for_many_set_no_capacity] with (u8, char, NoPredicate));
}

#[test]
fn of_restores() {
    use crate::callers::moka_restore_laws::laws::*;
    call_each!([answers_as_before] with (u64, u64, NoExpiry, NoPredicate, NoWeigher));
    call_each!(
        [restores_among_calls] with (
            u64, u64, DefaultHasher, NoExpiry, NoListener, NoPredicate, NoWeigher, FixedClock
        )
    );
}

#[test]
fn of_segments() {
    use crate::engine::moka_segments::laws::*;
    call_each!(
        [each_runs, calls_of_all_are_moves] with (
            u64, u64, (), NoExpiry, NoListener, NoPredicate, NoWeigher, FixedClock
        )
    );
    call_each!(
        [keys_stay, calls_of_all_keep_keys] with (
            u64, u64, DefaultHasher, NoExpiry, NoListener, NoPredicate, NoWeigher, FixedClock
        )
    );
    call_each!([shares_sum] with (u64, u64, (), NoExpiry, NoListener, NoPredicate, NoWeigher));
    call_each!([none_belong] with (u64, u64, DefaultHasher, NoExpiry, NoListener, NoPredicate, NoWeigher));
}

#[test]
fn of_makers_in_segments() {
    use crate::engine::moka_segments::laws::*;
    call_each!(
        [get_with_is_move, get_with_keeps_keys] with (
            u64, u64, DefaultHasher, NoExpiry, NoListener, NoPredicate, NoWeigher, FixedClock, fn() -> u64
        )
    );
    call_each!(
        [other_makers_are_moves, other_makers_keep_keys] with (
            u64, u64, DefaultHasher, NoExpiry, NoListener, NoPredicate, NoWeigher, FixedClock,
            u64, fn() -> Option<u64>, fn() -> Result<u64, u64>
        )
    );
}

#[test]
fn of_predicates_in_segments() {
    use crate::engine::moka_segments::laws::*;
    call_each!(
        [registering_is_moves] with (
            u64, u64, (), NoExpiry, NoListener, NoPredicate, NoWeigher, FixedClock, OneId, fn() -> NoPredicate
        )
    );
    call_each!(
        [registering_keeps_keys] with (
            u64, u64, DefaultHasher, NoExpiry, NoListener, NoPredicate, NoWeigher, OneId, fn() -> NoPredicate
        )
    );
}
