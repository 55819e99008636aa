//! The markup: bytes to a tree of elements.
//!
//! The reader walks over the flow once, tag by tag, with a stack of the elements that are open. It has one answer for everything that
//! breaks: there is no tree.

/// The greatest depth; the root is at depth 1.
pub const DEEPEST: usize = 12;

/// The most bytes a name has.
pub const LONGEST_NAME: usize = 48;

/// The five references and the byte that each stands for.
pub const REFERENCES: [(&str, u8); 5] = [("&amp;", b'&'), ("&lt;", b'<'), ("&gt;", b'>'), ("&quot;", b'"'), ("&apos;", b'\'')];

const MARK: &[u8] = b"\xEF\xBB\xBF";
const DECLARATION: &[u8] = br#"<?xml version="1.0" encoding="UTF-8"?>"#;

/// An element of the flow.
#[derive(Clone, Debug, PartialEq, Eq)]
pub struct Element<'f> {
    /// The name, byte for byte.
    pub name: &'f [u8],
    /// The place of its `<`, counted from 0 at the flow's first byte.
    pub at: usize,
    /// What it holds.
    pub content: Content<'f>,
}

/// What an element holds: elements with only white space around them, or text only.
#[derive(Clone, Debug, PartialEq, Eq)]
pub enum Content<'f> {
    /// One or more elements.
    Elements(Vec<Element<'f>>),
    /// Text, perhaps empty, as it stands in the flow.
    Text(&'f [u8]),
}

/// An element whose end tag has not come yet.
struct Open<'f> {
    name: &'f [u8],
    at: usize,
    children: Vec<Element<'f>>,
    texts: Vec<&'f [u8]>,
}

impl<'f> Open<'f> {
    fn close(self) -> Option<Element<'f>> {
        let content = if self.children.is_empty() {
            let text = self.texts.first().copied().unwrap_or_default();
            is_text(text).then_some(Content::Text(text))
        } else {
            let only_white = self.texts.iter().all(|text| is_white(text));
            only_white.then_some(Content::Elements(self.children))
        };
        Some(Element { name: self.name, at: self.at, content: content? })
    }
}

/// Reads the flow's markup; `None` when it breaks. An Id may stand on the root where `ids` says so. The length of the flow is not looked at
/// here.
///
/// ```
/// use reference::markup::{read, Content};
///
/// let root = read(b"<a><b>x &lt; y</b> <c></c></a>", false).unwrap();
/// assert!(matches!(&root.content, Content::Elements(inner) if inner.len() == 2));
/// assert!(read(b"<a>text <b></b></a>", false).is_none());
/// assert!(read(b"<a Id=\"1\">text</a>", false).is_none());
/// assert!(read(b"<a Id=\"1\">text</a>", true).is_some());
/// ```
pub fn read(flow: &[u8], ids: bool) -> Option<Element<'_>> {
    let mut open: Vec<Open> = Vec::new();
    let mut root = None;
    let mut at = after_prologue(flow);
    while at < flow.len() {
        if flow[at] == b'<' {
            let end = at + flow[at..].iter().position(|&byte| byte == b'>')?;
            let inside = &flow[at + 1..end];
            if let Some(name) = inside.strip_prefix(b"/") {
                let element = open.pop()?;
                if name != element.name {
                    return None;
                }
                let element = element.close()?;
                match open.last_mut() {
                    Some(parent) => parent.children.push(element),
                    None => root = Some(element),
                }
            } else {
                let name = if ids && open.is_empty() { without_id(inside)? } else { inside };
                if !is_name(name) || root.is_some() || open.len() == DEEPEST {
                    return None;
                }
                open.push(Open { name, at, children: Vec::new(), texts: Vec::new() });
            }
            at = end + 1;
        } else {
            let rest = &flow[at..];
            let length = rest.iter().position(|&byte| byte == b'<');
            let text = &rest[..length.unwrap_or(rest.len())];
            match open.last_mut() {
                Some(element) => element.texts.push(text),
                None if is_white(text) => {}
                None => return None,
            }
            at += text.len();
        }
    }
    if open.is_empty() { root } else { None }
}

/// A root's name, without the Id that may stand after it: one space, `Id="`, 1 to 64 letters, digits or underscores, `"`.
fn without_id(inside: &[u8]) -> Option<&[u8]> {
    let Some(space) = inside.iter().position(|&byte| byte == b' ') else {
        return Some(inside);
    };
    let (name, attribute) = inside.split_at(space);
    let id = attribute.strip_prefix(b" Id=\"")?.strip_suffix(b"\"")?;
    let stands = (1..=64).contains(&id.len()) && id.iter().all(|&byte| byte.is_ascii_alphanumeric() || byte == b'_');
    stands.then_some(name)
}

/// The place after the mark and the declaration, where they stand.
fn after_prologue(flow: &[u8]) -> usize {
    let mut rest = flow;
    for part in [MARK, DECLARATION] {
        rest = rest.strip_prefix(part).unwrap_or(rest);
    }
    flow.len() - rest.len()
}

/// Whether these bytes are a name: 1 to 48 letters, digits and underscores, a letter first.
pub fn is_name(bytes: &[u8]) -> bool {
    bytes.len() <= LONGEST_NAME
        && bytes.first().is_some_and(u8::is_ascii_alphabetic)
        && bytes.iter().all(|&byte| byte.is_ascii_alphanumeric() || byte == b'_')
}

/// Whether these bytes are white space only (or none at all).
pub fn is_white(bytes: &[u8]) -> bool {
    bytes.iter().all(|byte| matches!(byte, 0x20 | 0x09 | 0x0A | 0x0D))
}

/// Whether these bytes are text that an element may hold.
pub fn is_text(bytes: &[u8]) -> bool {
    let Ok(text) = std::str::from_utf8(bytes) else {
        return false;
    };
    text.chars().all(is_character)
        && !text.contains('<')
        && !text.contains("]]>")
        && text.match_indices('&').all(|(at, _)| {
            let here = &text[at..];
            REFERENCES.iter().any(|(name, _)| here.starts_with(name))
        })
}

/// The characters that XML 1.0 allows (its production 2).
pub fn is_character(character: char) -> bool {
    matches!(character,
        '\u{9}' | '\u{A}' | '\u{D}' | '\u{20}'..='\u{D7FF}' | '\u{E000}'..='\u{FFFD}' | '\u{10000}'..='\u{10FFFF}')
}

/// The text with each of the five references replaced, once.
pub fn replaced(text: &[u8]) -> Vec<u8> {
    let mut bytes = Vec::new();
    let mut rest = text;
    while let Some(&first) = rest.first() {
        let reference = REFERENCES.iter().find(|(name, _)| rest.starts_with(name.as_bytes()));
        let (length, byte) = reference.map_or((1, first), |(name, byte)| (name.len(), *byte));
        bytes.push(byte);
        rest = &rest[length..];
    }
    bytes
}

#[cfg(test)]
mod tests {
    use super::*;

    fn stands(flow: impl AsRef<[u8]>) -> bool {
        read(flow.as_ref(), false).is_some()
    }

    fn nested(depth: usize) -> String {
        "<a>".repeat(depth) + &"</a>".repeat(depth)
    }

    #[test]
    fn the_prologue() {
        let declaration = r#"<?xml version="1.0" encoding="UTF-8"?>"#;
        assert!(stands("<a></a>"));
        assert!(stands("\u{FEFF}<a></a>"));
        assert!(stands(format!("{declaration}<a></a>")));
        assert!(stands(format!("\u{FEFF}{declaration} \t\r\n<a></a>\r\n")));
        assert!(stands(" <a></a> "));
        assert!(!stands(format!(" {declaration}<a></a>")));
        assert!(!stands(format!("{declaration}{declaration}<a></a>")));
        assert!(!stands("\u{FEFF}\u{FEFF}<a></a>"));
        assert!(!stands(format!("{declaration}\u{FEFF}<a></a>")));
        assert!(!stands(declaration.replace('"', "'") + "<a></a>"));
        assert!(!stands(declaration.replace("UTF", "utf") + "<a></a>"));
        assert!(!stands(declaration.replace("?>", " ?>") + "<a></a>"));
        for nothing in ["", " ", "\u{FEFF}", declaration, "x"] {
            assert!(!stands(nothing));
        }
    }

    #[test]
    fn the_tags() {
        assert!(stands("<A_1></A_1>"));
        for broken in [
            "<a>",
            "</a>",
            "<a></b>",
            "<a></a></a>",
            "<a></a><b></b>",
            "<a></a>x",
            "x<a></a>",
            "<a/>",
            "<a></a",
            "<></>",
            "< a></a>",
            "<a ></a >",
            "<a></a >",
            "<a x=\"1\"></a>",
            "<1></1>",
            "<_a></_a>",
            "<a-b></a-b>",
            "<a:b></a:b>",
            "<à></à>",
            "<!-- --><a></a>",
            "<a><![CDATA[x]]></a>",
            "<a><?x?></a>",
            "<!DOCTYPE a><a></a>",
            "<a<b></a<b>",
            "<a></A>",
        ] {
            assert!(!stands(broken), "{broken}");
        }
        let name = "n".repeat(48);
        assert!(stands(format!("<{name}></{name}>")));
        assert!(!stands(format!("<{name}n></{name}n>")));
        assert!(stands("<xml></xml>"));
    }

    #[test]
    fn the_depth() {
        assert!(stands(nested(12)));
        assert!(!stands(nested(13)));
    }

    #[test]
    fn content_is_elements_or_text() {
        assert!(stands("<a> <b></b>\n<c> </c>\t</a>"));
        for mixed in ["<a>x<b></b></a>", "<a><b></b>x</a>", "<a><b></b>x<b></b></a>", "<a><b></b>&amp;</a>", "<a>\u{A0}<b></b></a>"]
        {
            assert!(!stands(mixed), "{mixed}");
        }
        let white = read(b"<a> </a>", false).unwrap();
        assert_eq!(white.content, Content::Text(b" "));
    }

    #[test]
    fn the_text() {
        let holds = |text: &[u8]| stands([b"<a>", text, b"</a>"].concat());
        assert!(holds(b"&amp;&lt;&gt;&quot;&apos;"));
        for reference in ["&", "&;", "&amp", "&AMP;", "&#38;", "&#x26;", "&nbsp;", "& amp;"] {
            assert!(!holds(reference.as_bytes()), "{reference}");
        }
        for stands in ["]]", "]>", ">", "]] >", "]]&gt;", "] ]>"] {
            assert!(holds(stands.as_bytes()), "{stands}");
        }
        assert!(!holds(b"]]>"));
        assert!(!holds(b"]]]>"));
        for allowed in [
            "\t",
            "\n",
            "\r",
            "\u{7F}",
            "\u{80}",
            "\u{85}",
            "\u{FEFF}",
            "\u{FDD0}",
            "\u{FFFD}",
            "\u{1FFFE}",
            "\u{10FFFF}",
            "\u{D7FF}",
            "\u{E000}",
        ] {
            assert!(holds(allowed.as_bytes()), "{allowed:?}");
        }
        for refused in ["\0", "\u{8}", "\u{B}", "\u{1F}", "\u{FFFE}", "\u{FFFF}"] {
            assert!(!holds(refused.as_bytes()), "{refused:?}");
        }
        for bytes in [
            &b"\x80"[..],
            b"\xC3",
            b"\xC0\x80",
            b"\xC1\xBF",
            b"\xE0\x9F\xBF",
            b"\xED\xA0\x80",
            b"\xF0\x8F\xBF\xBF",
            b"\xF4\x90\x80\x80",
            b"\xF5\x80\x80\x80",
            b"\xFF",
        ] {
            assert!(!holds(bytes), "{bytes:x?}");
        }
    }

    #[test]
    fn references_are_replaced_once() {
        assert_eq!(replaced(b"&amp;lt;"), b"&lt;");
        assert_eq!(replaced(b"a&quot;&apos;b"), b"a\"'b");
    }
}
