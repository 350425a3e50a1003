//! How alike two texts are.
use super::{AllocError, TryList, try_vec};

/// The fewest edits that lead from one text to the other: a letter is put in, taken out or replaced, or two neighbours change places,
/// and no part is edited twice.
pub(crate) fn osa_distance(a: &str, b: &str) -> Result<usize, AllocError> {
    let (a, b) = (a.chars().try_list()?, b.chars().try_list()?);
    let width = b.len() + 1;
    let mut rows = try_vec(0, 3 * width)?;
    for (j, edits) in rows[2 * width..].iter_mut().enumerate() {
        *edits = j;
    }
    for i in 0..a.len() {
        rows.rotate_left(width);
        rows[2 * width] = i + 1;
        for j in 0..b.len() {
            let (above, here) = (width + j, 2 * width + j);
            let mut edits = (rows[above] + usize::from(a[i] != b[j]))
                .min(rows[above + 1] + 1)
                .min(rows[here] + 1);
            if i > 0 && j > 0 && a[i] == b[j - 1] && a[i - 1] == b[j] {
                edits = edits.min(rows[j - 1] + 1);
            }
            rows[here + 1] = edits;
        }
    }
    Ok(rows[3 * width - 1])
}

#[cfg(test)]
mod tests {
    use super::osa_distance;

    #[test]
    fn counts_edits() {
        for (a, b, wanted) in [
            ("", "", 0),
            ("", "abc", 3),
            ("abc", "", 3),
            ("--limit", "--limt", 1),
            ("--josn", "--json", 1),
            ("abcd", "badc", 2),
            ("kitten", "sitting", 3),
            ("ca", "abc", 3),
        ] {
            assert_eq!(osa_distance(a, b), Ok(wanted), "{a} {b}");
        }
    }
}
