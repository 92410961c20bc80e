//! Stub: names of the read-only heap. Holds none.

pub struct RoMap;

impl RoMap {
    pub fn get(&self, _chunk: u32, _offset: u32) -> Option<&str> {
        None
    }

    pub fn root_name(&self, _index: usize) -> Option<&str> {
        None
    }
}
