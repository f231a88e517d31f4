//! Names as a sheet holds them (document 01, "Bytes and words" and "Annotating").

/// A name with its divider "turned into `.`". An escaped divider is none.
pub fn with_dots(name: &[u8], slash: bool) -> Vec<u8> {
    let mut escaped = false;
    let dotted = |byte: &u8| {
        let divider = slash && *byte == b'/' && !escaped;
        escaped = *byte == b'\\' && !escaped;
        if divider {
            b'.'
        } else {
            *byte
        }
    };
    name.iter().map(dotted).collect()
}

/// "An end's full name is the instance path, `.` and the written name; at the top level the written name alone."
pub fn full_name(path: &[u8], name: &[u8]) -> Vec<u8> {
    match path.is_empty() {
        true => name.to_vec(),
        false => [path, b".", name].concat(),
    }
}

#[cfg(test)]
mod tests {
    use super::*;

    #[test]
    fn dividers() {
        assert_eq!(with_dots(br"a/b\/c\\/d", true), br"a.b\/c\\.d");
        assert_eq!(with_dots(br"a.b\/c", false), br"a.b\/c");
        assert_eq!(full_name(b"", b"p"), b"p");
        assert_eq!(full_name(b"a.b", b"p"), b"a.b.p");
    }
}
