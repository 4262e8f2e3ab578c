//! Files of one form in the other.

use crate::limits;

/// A line of the older form in the newer one: an ask line with these groups, an assume line in this group, any other line as it
/// is.
pub fn newer_line(line: &[u8], groups: u32, group: u32) -> Vec<u8> {
    let mut fields: Vec<&[u8]> = line.split(|&byte| byte == b',').collect();
    let (groups, group) = (groups.to_string(), group.to_string());
    match *fields {
        [b"ask", ..] => {
            fields[0] = b"ask2";
            fields.push(groups.as_bytes());
        }
        // Between the flag and the term.
        [b"assume", _, _, ..] => fields.insert(3, group.as_bytes()),
        _ => {}
    }
    fields.join(&b',')
}

/// A file of the older form in the newer one, line by line: `groups` gives those of the next ask line, `group` that of the next
/// fact.
pub fn newer(file: &[u8], mut groups: impl FnMut() -> u32, mut group: impl FnMut() -> u32) -> Vec<u8> {
    let line = |line: &[u8]| match line {
        [b'a', b's', b'k', b',', ..] => newer_line(line, groups(), 0),
        [b'a', b's', b's', b'u', b'm', b'e', b',', ..] => newer_line(line, 0, group()),
        _ => line.to_vec(),
    };
    file.split(|&byte| byte == b'\n').map(line).collect::<Vec<_>>().join(&b'\n')
}

/// A file of the older form in the newer one, with all groups admitted and facts of group 0.
pub fn all_admitted(file: &[u8]) -> Vec<u8> {
    newer(file, || limits::GROUPS, || 0)
}

/// What an accepted file of the newer form is to an ask with these groups: a file of the older form without the facts that are
/// not admitted, and for each of its lines the line that it was.
pub fn admitted(file: &[u8], groups: u32) -> (Vec<u8>, Vec<u32>) {
    let (mut older, mut lines) = (Vec::new(), Vec::new());
    for (line, number) in file.split_inclusive(|&byte| byte == b'\n').zip(1..) {
        let mut fields: Vec<&[u8]> = line.split(|&byte| byte == b',').collect();
        match *fields {
            [b"ask2", query, options, _] => {
                older.extend_from_slice(&[b"ask", query, options].join(&b','));
                older.push(b'\n');
            }
            [b"assume", _, _, group, _] => {
                let group: u32 = String::from_utf8_lossy(group).parse().unwrap_or_default();
                if groups >> group & 1 == 0 {
                    continue;
                }
                fields.remove(3);
                older.extend_from_slice(&fields.join(&b','));
            }
            _ => older.extend_from_slice(line),
        }
        lines.push(number);
    }
    (older, lines)
}

#[cfg(test)]
mod tests {
    use super::*;
    use crate::filter_file;

    #[test]
    fn lines_in_the_newer_form() {
        for (line, in_newer) in [
            ("ask,1,4", "ask2,1,4,9"),
            ("ask", "ask2,9"),
            ("assume,a,0,7", "assume,a,0,3,7"),
            ("assume,a", "assume,a"),
            ("also,1", "also,1"),
            ("root,0,assume,7", "root,0,assume,7"),
        ] {
            assert_eq!(newer_line(line.as_bytes(), 9, 3), in_newer.as_bytes());
        }
    }

    #[test]
    fn a_file_in_both_forms() {
        let file = b"ask,0,4\nalso,1\nfree,p\nop,eq,0,0\nassume,a,0,1\nassume,b,0,1\nfun,p\nroot,0,r,0\n";
        let in_newer = all_admitted(file);
        assert!(in_newer.starts_with(b"ask2,0,4,65535\nalso,1\nfree,p\nop,eq,0,0\nassume,a,0,0,1\n"));
        assert_eq!(filter_file(&in_newer), filter_file(file));
        assert_eq!(admitted(&in_newer, 1), (file.to_vec(), (1..=8).collect()));

        let mut next = 0..;
        let two_groups = newer(file, || 2, || next.next().unwrap_or_default());
        let (older, lines) = admitted(&two_groups, 2);
        assert_eq!(older, b"ask,0,4\nalso,1\nfree,p\nop,eq,0,0\nassume,b,0,1\nfun,p\nroot,0,r,0\n");
        assert_eq!(lines, [1, 2, 3, 4, 6, 7, 8]);
    }
}
