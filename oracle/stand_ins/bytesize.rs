// What the original uses of bytesize: a number that prints itself.
pub struct ByteSize(pub u64);
impl ByteSize {
    pub fn to_string_as(&self, _si: bool) -> String {
        self.0.to_string()
    }
}
impl std::fmt::Display for ByteSize {
    fn fmt(&self, f: &mut std::fmt::Formatter<'_>) -> std::fmt::Result {
        write!(f, "{}", self.0)
    }
}
