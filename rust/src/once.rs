//! Closures of the caller's without their types: what is done about them is compiled once for all of them.

/// A closure that is called at most once. As a closure itself would, it goes with what it has captured when this is
/// dropped; but this has one type for all that take and give the same, and needs no memory.
pub(crate) struct Once<'a, A, R>(&'a mut dyn Slot<A, R>);

/// Where the closure is until it is called or dropped.
trait Slot<A, R> {
    fn call(&mut self, given: A) -> R;
    fn empty(&mut self);
}

impl<A, R, F: FnOnce(A) -> R> Slot<A, R> for Option<F> {
    fn call(&mut self, given: A) -> R {
        match self.take() {
            Some(closure) => closure(given),
            None => unreachable!("a closure is called once"),
        }
    }

    fn empty(&mut self) {
        *self = None;
    }
}

impl<'a, A, R> Once<'a, A, R> {
    /// The closure that is in this slot.
    #[inline]
    pub fn of<F: FnOnce(A) -> R>(slot: &'a mut Option<F>) -> Self {
        Once(slot)
    }

    pub fn call(self, given: A) -> R {
        self.0.call(given)
    }
}

impl<A, R> Drop for Once<'_, A, R> {
    fn drop(&mut self) {
        self.0.empty();
    }
}

/// What a call answers to which a closure is given that may fail, or the closure's error. The call is told only that it
/// failed, so it is none for each type of error; then it has no answer.
#[inline]
pub(crate) fn trying<A, T, R, E>(
    closure: impl FnOnce(A) -> Result<T, E>,
    call: impl FnOnce(Once<'_, A, Option<T>>) -> Option<R>,
) -> Result<R, E> {
    let mut failure = None;
    let answer = call(Once::of(&mut Some(|given| match closure(given) {
        Ok(value) => Some(value),
        Err(error) => {
            failure = Some(error);
            None
        }
    })));
    match (answer, failure) {
        (Some(answer), _) => Ok(answer),
        (None, Some(error)) => Err(error),
        (None, None) => unreachable!("a closure that gave a value is answered"),
    }
}

#[cfg(test)]
mod tests {
    use super::*;
    use std::rc::Rc;

    #[test]
    fn what_a_closure_has_captured_goes_when_it_is_dropped_or_called() {
        let shared = Rc::new(());
        let captured = Rc::clone(&shared);
        let mut slot = Some(move |()| Rc::strong_count(&captured));
        let once = Once::of(&mut slot);
        assert_eq!(Rc::strong_count(&shared), 2);
        drop(once);
        assert_eq!(Rc::strong_count(&shared), 1);
        assert!(slot.is_none());

        let captured = Rc::clone(&shared);
        let mut slot = Some(move |more| Rc::strong_count(&captured) + more);
        assert_eq!(Once::of(&mut slot).call(5), 7);
        assert_eq!(Rc::strong_count(&shared), 1);
    }

    #[test]
    fn the_error_of_a_closure_is_handed_out() {
        let less = |more: u32| more.checked_sub(5).ok_or("too small");
        assert_eq!(trying(less, |less| less.call(8).map(|less| less * 2)), Ok(6));
        assert_eq!(trying(less, |less| less.call(4)), Err("too small"));
    }
}
