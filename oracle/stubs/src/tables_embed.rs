// Stub: the generated tables. There are none; the oracle builds its table from record files.

pub static MANIFEST_JSON: &str = "";
pub static EMBEDDED_TABLE_FILES: &[(&str, &str)] = &[];
