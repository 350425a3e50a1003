//! Archives that tests build.

/// Returns an archive. A member has the name and the size of its header as texts, and the bytes after it.
pub fn archive(members: &[(&str, &str, &[u8])]) -> Vec<u8> {
    let mut bytes = b"!<arch>\n".to_vec();
    for (name, size, held) in members {
        bytes.extend(
            format!(
                "{name:16}{:12}{:6}{:6}{:8}{size:10}`\n",
                "0", "0", "0", "644"
            )
            .into_bytes(),
        );
        bytes.extend(*held);
    }
    bytes
}
