// ---- appended by oracle/build: opens private fields, changes nothing above ----

impl<'a> CodeCache<'a> {
    pub fn open_new(payload: &'a [u8], tagged_size: usize, objects: Vec<Object>) -> Self {
        CodeCache {
            payload,
            tagged_size,
            objects,
            top_sfi: 0,
        }
    }
}
