//! Stub: finding a V8 version by its hash. Finds none.

#[derive(Debug, Clone, Copy, PartialEq, Eq)]
pub enum Fold {
    LeftFold,
    RightFold,
}

pub fn brute_force(_hash: u32) -> Option<(Fold, (u32, u32, u32, u32))> {
    None
}
