// Shared by the build scripts.

/// The names in an archive's index, which is its first member: a count, the members' places, all
/// as four bytes with the high one first, and then the names, each ended by a zero.
fn exported(archive: &[u8]) -> Vec<String> {
    let index = archive.strip_prefix(b"!<arch>\n".as_slice()).and_then(|a| {
        let size: usize = std::str::from_utf8(a.get(48..58)?).ok()?.trim().parse().ok()?;
        a.starts_with(b"/ ").then(|| a.get(60..60 + size))?
    });
    let Some((count, rest)) = index.and_then(|i| i.split_at_checked(4)) else {
        return Vec::new();
    };
    let count = u32::from_be_bytes([count[0], count[1], count[2], count[3]]) as usize;
    let names = rest.get(4 * count..).unwrap_or(&[]);
    names.split(|b| *b == 0).map(|n| String::from_utf8_lossy(n).into_owned()).collect()
}
