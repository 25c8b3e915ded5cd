use core::{
    future::Future,
    pin::pin,
    task::{Context, Poll, Waker},
};

/// The original's error for a pool that has ended; never here.
#[derive(Debug)]
pub struct Cancelled;

/// Tasks that run inline, in order.
pub struct Tasks;

impl Tasks {
    pub fn is_inline(&self) -> bool {
        true
    }

    pub async fn run_all<T>(
        &self,
        jobs: Vec<Box<dyn FnOnce() -> T + Send + 'static>>,
    ) -> Result<Vec<T>, Cancelled> {
        Ok(jobs.into_iter().map(|job| job()).collect())
    }
}

/// The result of a future that never waits, which is all futures with inline tasks.
pub fn block_on<F: Future>(future: F) -> F::Output {
    let mut future = pin!(future);
    match future
        .as_mut()
        .poll(&mut Context::from_waker(Waker::noop()))
    {
        Poll::Ready(output) => output,
        Poll::Pending => unreachable!("inline tasks never wait"),
    }
}
