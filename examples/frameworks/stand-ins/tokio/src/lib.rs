//! A small stand-in of tokio 1, for the test alone: what the server by tower-lsp uses of it, written after that crate's interface.
pub use attributes::main;
use std::future::Future;
use std::pin::pin;
use std::sync::Arc;
use std::task::{Context, Poll, Wake};

pub mod io {
    pub use std::io::{stdin, stdout};
}

struct NoWaker;

impl Wake for NoWaker {
    fn wake(self: Arc<Self>) {}
}

/// Polls a future once: none of the stand-ins waits.
pub fn block_on<F: Future>(future: F) -> F::Output {
    match pin!(future).poll(&mut Context::from_waker(&Arc::new(NoWaker).into())) {
        Poll::Ready(output) => output,
        Poll::Pending => unreachable!("the stand-in waits for nothing"),
    }
}
