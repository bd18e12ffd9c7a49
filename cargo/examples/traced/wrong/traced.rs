//! What is no function, and a function that isn't whole: the errors are told there.
use traced::traced;

#[traced(log)]
pub struct Shape;

trait Area {
    #[traced(log)]
    fn area(&self) -> u32;
}
