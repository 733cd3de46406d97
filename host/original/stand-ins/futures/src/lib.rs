//! Stands in for futures 0.3, after its documentation.
#![no_std]

/// Joining.
pub mod future {
    use core::future::{Future, poll_fn};
    use core::pin::pin;
    use core::task::Poll;

    /// Waits for both futures to complete, or for one to give an error.
    ///
    /// Each poll goes to the first and then to the second, but to none that has
    /// completed. An error ends both at once.
    pub async fn try_join<A, B, E>(
        first: impl Future<Output = Result<A, E>>,
        second: impl Future<Output = Result<B, E>>,
    ) -> Result<(A, B), E> {
        let (mut first, mut second) = (pin!(first), pin!(second));
        let mut values = (None, None);
        poll_fn(|context| {
            if values.0.is_none()
                && let Poll::Ready(value) = first.as_mut().poll(context)?
            {
                values.0 = Some(value);
            }
            if values.1.is_none()
                && let Poll::Ready(value) = second.as_mut().poll(context)?
            {
                values.1 = Some(value);
            }
            match core::mem::take(&mut values) {
                (Some(first), Some(second)) => Poll::Ready(Ok((first, second))),
                incomplete => {
                    values = incomplete;
                    Poll::Pending
                }
            }
        })
        .await
    }
}

/// Tasks.
pub mod task {
    use core::task::Waker;

    /// A waker that does nothing.
    pub fn noop_waker() -> Waker {
        Waker::noop().clone()
    }
}
