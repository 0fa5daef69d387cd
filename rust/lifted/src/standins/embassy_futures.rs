//! Stands in for the crate embassy-futures: `yield_now` is pending once.
use core::{future::poll_fn, task::Poll};

pub async fn yield_now() {
    let mut yielded = false;
    poll_fn(|context| {
        if yielded {
            return Poll::Ready(());
        }
        yielded = true;
        context.waker().wake_by_ref();
        Poll::Pending
    })
    .await
}
