//! `dsp_process` isn't in the text. Its four traits as the crate uses them: one sample in, one out, with the
//! state in `self` or split from the configuration. The in-place traits only mark here.

pub trait Process<X, Y = X> {
    fn process(&mut self, x: X) -> Y;
}

pub trait Inplace<X: Copy>: Process<X> {}

pub trait SplitProcess<X, Y, S: ?Sized> {
    fn process(&self, state: &mut S, x: X) -> Y;
}

pub trait SplitInplace<X: Copy, S: ?Sized>: SplitProcess<X, X, S> {}
