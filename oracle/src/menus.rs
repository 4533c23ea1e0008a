//! Menu lines: line k of the translated text, or of the English text where that is missing or empty.
//! A text is cut at each byte 10, and what follows the last one is a line too.

/// Which text the part belongs to, and its bytes.
#[derive(Debug, PartialEq, Eq)]
pub struct Part<'a> {
    pub text: char,
    pub bytes: &'a [u8],
}

pub fn line<'a>(k: usize, translated: &'a [u8], english: &'a [u8]) -> Part<'a> {
    let nth = |text: &'a [u8]| text.split(|&byte| byte == 10).nth(k);
    match nth(translated) {
        Some(bytes) if !bytes.is_empty() => Part { text: 't', bytes },
        _ => Part {
            text: 'e',
            bytes: nth(english).unwrap_or_default(),
        },
    }
}

#[cfg(test)]
mod tests {
    use super::*;

    fn shown(k: usize, translated: &str, english: &str) -> (char, String) {
        let part = line(k, translated.as_bytes(), english.as_bytes());
        (part.text, String::from_utf8_lossy(part.bytes).into_owned())
    }

    #[test]
    fn translated_or_english() {
        let english = "Load\nPlace\n";
        assert_eq!(shown(0, "Laden", english), ('t', "Laden".into()));
        assert_eq!(shown(1, "Laden", english), ('e', "Place".into()));
        assert_eq!(shown(0, "\nStellen", english), ('e', "Load".into()));
        assert_eq!(shown(1, "\nStellen", english), ('t', "Stellen".into()));
        assert_eq!(shown(2, "", english), ('e', String::new()));
        assert_eq!(shown(7, "", english), ('e', String::new()));
        assert_eq!(shown(0, "", ""), ('e', String::new()));
    }
}
