// Stands in for serde_json: a value that holds nothing. The module hands it to canonical_hash alone.
pub struct Value;

#[macro_export]
macro_rules! json {
    ($($any:tt)*) => {
        $crate::Value
    };
}
