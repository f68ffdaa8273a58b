//! A stand-in for the one trait and the one type of argmin that models.rs names. Nothing is minimised here.

#[derive(Debug)]
pub struct Error;

#[allow(dead_code)]
pub trait CostFunction {
    type Param;
    type Output;

    fn cost(&self, param: &Self::Param) -> Result<Self::Output, Error>;
}
