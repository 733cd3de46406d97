//! Stands in for imxrt-hal's lib.rs: what lpspi.rs uses of it.

use crate::ral::Instance;
use std::pin::pin;
use std::task::{Context, Poll};

/// Simply spins on the future.
pub fn spin_on<F: Future>(future: F) -> F::Output {
    let waker = futures::task::noop_waker();
    let mut context = Context::from_waker(&waker);
    let mut future = pin!(future);

    loop {
        if let Poll::Ready(result) = future.as_mut().poll(&mut context) {
            return result;
        }
    }
}

/// An instance whose number does not matter.
pub type AnyInstance<T> = Instance<T, 0xFF>;

/// Discards the instance's number.
pub fn into_any<T, const N: u8>(instance: Instance<T, N>) -> AnyInstance<T> {
    instance.renumbered()
}
