//! Paths of modules.

pub const ASCII: &str = "/home/user/measurements/lib/libsolver.so.4";
/// With characters of two, three and four bytes.
pub const MIXED: &str = "/Die Größe der Datei – naïve café 数据 😀";

/// So many bytes of a text over and over, from its n-th character on; up to three dots at the end.
pub fn path(text: &str, n: usize, bytes: usize) -> Vec<u8> {
    let mut path = String::with_capacity(bytes);
    let mut characters = text.chars().cycle().skip(n);
    while bytes - path.len() > 3 {
        path.extend(characters.next());
    }
    let mut path = path.into_bytes();
    path.resize(bytes, b'.');
    path
}

/// The same with a byte of Latin-1, an é, in the middle.
pub fn with_latin_1(mut path: Vec<u8>) -> Vec<u8> {
    let middle = path.len() / 2;
    path[middle] = 0xe9;
    path
}
