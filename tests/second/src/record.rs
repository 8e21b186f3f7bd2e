//! Records: what a message is, and where its heading lies.

/// "a form (0 plain text, 1 packed message, 2 packed file)"
#[derive(Clone, Copy, Debug, PartialEq, Eq)]
#[repr(u8)]
pub enum Form {
    Plain = 0,
    Message = 1,
    File = 2,
}

/// "a type (P or B)"
#[derive(Clone, Copy, Debug, PartialEq, Eq)]
pub enum Kind {
    Private,
    Bulletin,
}

impl Kind {
    /// "Command, type and feature letters are taken in either case"
    pub fn read(byte: u8) -> Option<Kind> {
        match byte {
            b'P' | b'p' => Some(Kind::Private),
            b'B' | b'b' => Some(Kind::Bulletin),
            _ => None,
        }
    }

    /// "and written as capitals".
    pub const fn byte(self) -> u8 {
        match self {
            Kind::Private => b'P',
            Kind::Bulletin => b'B',
        }
    }
}

/// "The heading of a transfer is the title for a message or the file name for a
/// file, shown where it lies in its store." `None` where start and length run
/// past the store's end.
pub fn heading<'a>(
    form: Form,
    titles: &'a [u8],
    names: &'a [u8],
    start: usize,
    length: usize,
) -> Option<&'a [u8]> {
    let store = match form {
        Form::File => names,
        Form::Plain | Form::Message => titles,
    };
    store.get(start..)?.get(..length)
}

#[cfg(test)]
mod tests {
    use super::*;

    #[test]
    fn types_are_p_and_b_in_either_case() {
        let taken: Vec<u8> = (0..=255).filter(|&b| Kind::read(b).is_some()).collect();
        assert_eq!(taken, b"BPbp");
        assert_eq!(Kind::read(b'b').unwrap().byte(), b'B');
        assert_eq!(Kind::read(b'p').unwrap().byte(), b'P');
    }

    #[test]
    fn heading_is_the_title_of_a_message_and_the_name_of_a_file() {
        let heading = |form| heading(form, b"one title", b"one.name", 4, 4).unwrap();
        assert_eq!(heading(Form::Plain), b"titl");
        assert_eq!(heading(Form::Message), b"titl");
        assert_eq!(heading(Form::File), b"name");
    }

    #[test]
    fn heading_lies_within_its_store() {
        let part = |start, length| heading(Form::Plain, b"title", b"", start, length);
        assert_eq!(part(0, 5), Some(&b"title"[..]));
        assert_eq!(part(5, 0), Some(&b""[..]));
        assert_eq!(part(1, 5), None);
        assert_eq!(part(6, 0), None);
        assert_eq!(part(usize::MAX, 1), None);
        assert_eq!(part(1, usize::MAX), None);
    }
}
