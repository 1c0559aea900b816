//! Static libraries as `ar` archives of ELF objects: their sections, by name and
//! length. Enough of both forms for what a compiler writes on x86-64.

/// A section of an object: its name and how many bytes it has.
pub type Section = (String, usize);

/// The sections of every object in an archive.
pub fn sections(archive: &[u8]) -> Vec<Section> {
    let objects = members(archive).into_iter().filter(|m| is_object(m));
    objects.flat_map(sections_of).collect()
}

/// The bytes of all sections whose data a program can only read.
pub fn read_only(sections: &[Section]) -> usize {
    let read_only = |(name, _): &&Section| name.starts_with(".rodata");
    let sizes = sections.iter().filter(read_only).map(|(_, size)| size);
    sizes.sum()
}

pub fn is_object(bytes: &[u8]) -> bool {
    bytes.starts_with(b"\x7fELF\x02\x01")
}

/// The members of an archive, each behind a header of 60 bytes that tells its
/// length, at an even place.
fn members(archive: &[u8]) -> Vec<&[u8]> {
    const HEADER: usize = 60;
    let mut rest = archive.strip_prefix(b"!<arch>\n").expect("an archive");
    let mut found = Vec::new();
    while rest.len() > HEADER {
        let length = std::str::from_utf8(&rest[48..58]).expect("a header's length is text");
        let length: usize = length.trim().parse().expect("a number of bytes");
        found.push(&rest[HEADER..HEADER + length]);
        rest = &rest[(HEADER + length + length % 2).min(rest.len())..];
    }
    found
}

/// The sections of one object, by its table of section headers.
pub fn sections_of(object: &[u8]) -> Vec<Section> {
    let half = |at: usize| usize::from(u16::from_le_bytes([object[at], object[at + 1]]));
    let table = number(object, 40, 8);
    let (width, count, names) = (half(58), half(60), half(62));
    let header = |k: usize| table + k * width;
    let texts = number(object, header(names) + 24, 8);
    let section = |k: usize| {
        let name = &object[texts + number(object, header(k), 4)..];
        let end = name.iter().position(|&b| b == 0).expect("names end in 0");
        let name = String::from_utf8_lossy(&name[..end]).into_owned();
        (name, number(object, header(k) + 32, 8))
    };
    (0..count).map(section).collect()
}

/// The little-endian number of so many bytes.
fn number(bytes: &[u8], at: usize, width: usize) -> usize {
    let digits = bytes[at..at + width].iter().rev();
    digits.fold(0, |n, &b| n << 8 | usize::from(b))
}
