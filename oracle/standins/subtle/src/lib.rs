//! What the source uses of `subtle`: the same results, without its timing.

use std::ops::{BitAnd, BitOrAssign, Not};

#[derive(Debug, Clone, Copy)]
pub struct Choice(u8);

impl From<u8> for Choice {
    fn from(bit: u8) -> Self {
        Self(bit)
    }
}

impl From<Choice> for bool {
    fn from(choice: Choice) -> Self {
        choice.0 != 0
    }
}

impl BitAnd for Choice {
    type Output = Self;
    fn bitand(self, other: Self) -> Self {
        Self(self.0 & other.0)
    }
}

impl BitOrAssign for Choice {
    fn bitor_assign(&mut self, other: Self) {
        self.0 |= other.0;
    }
}

impl Not for Choice {
    type Output = Self;
    fn not(self) -> Self {
        Self(1 - self.0)
    }
}

pub trait ConstantTimeEq {
    fn ct_eq(&self, other: &Self) -> Choice;
}

impl ConstantTimeEq for u8 {
    fn ct_eq(&self, other: &Self) -> Choice {
        Choice(u8::from(self == other))
    }
}

impl ConstantTimeEq for [u8] {
    fn ct_eq(&self, other: &Self) -> Choice {
        Choice(u8::from(self == other))
    }
}

pub trait ConditionallySelectable: Copy {
    fn conditional_assign(&mut self, other: &Self, choice: Choice);
}

impl ConditionallySelectable for u64 {
    fn conditional_assign(&mut self, other: &Self, choice: Choice) {
        if choice.into() {
            *self = *other;
        }
    }
}
