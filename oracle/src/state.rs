//! Where a worker stands, as `replay` prints it: a place with the words held there, or idle with the last answer.

use std::fmt;

macro_rules! kinds {
    ($($group:ident { $($kind:ident $text:literal,)* })*) => {
        /// The kind of a place or answer. A call's places stand in the order of document 01.
        #[derive(Clone, Copy, Debug, PartialEq, Eq, PartialOrd)]
        pub enum Kind { $($($kind,)*)* }

        impl Kind {
            $(pub const $group: &'static [Kind] = &[$(Kind::$kind),*];)*
            const TEXTS: &'static [&'static str] = &[$($($text,)*)*];
            const WORDS: &'static [usize] = &[$($(words($text),)*)*];
            pub const COUNT: usize = Kind::TEXTS.len();
        }
    };
}

// Kind, and how it is printed; `#` stands for a number, `@` for a block or none.
kinds! {
    ANSWERS {
        None "idle:none",
        Pushed "idle:pushed",
        Full "idle:full(#)",
        ClosedPush "idle:closed(#)",
        Displaced "idle:displaced(#)",
        Popped "idle:popped(#)",
        Empty "idle:empty",
        ClosedPop "idle:closed",
        Len "idle:len(#)",
        Yes "idle:yes",
        No "idle:no",
    }

    BOUNDED {
        P1Push "P1:push(#)",
        P1Force "P1:force(#)",
        P2Push "P2:push(#,#)",
        P2Force "P2:force(#,#)",
        P3Push "P3:push(#,#)",
        P3Force "P3:force(#,#)",
        P4 "P4(#,#)",
        P5 "P5(#)",
        P6 "P6(#,#)",
        F6 "F6(#,#)",
        F7 "F7(#,#)",
        F8 "F8(#,#)",
        F9 "F9(#,#)",
        O1 "O1",
        O2 "O2(#)",
        O3 "O3(#)",
        O4 "O4(#)",
        O5 "O5(#,#)",
        O6 "O6(#)",
    }

    SINGLE {
        A1 "A1(#)",
        A2 "A2(#)",
        A3 "A3",
        B1 "B1(#,#)",
        B2 "B2(#)",
        B3 "B3",
        B4 "B4(#)",
        B5 "B5(#)",
        C1 "C1(#)",
        C2 "C2",
        C3 "C3(#)",
    }

    UNBOUNDED {
        U1 "U1(@,#)",
        U2 "U2(@,#,#)",
        U3 "U3(#,@,#)",
        U4 "U4(@,#,#)",
        U5 "U5(@,#,@,#)",
        U6 "U6(@,#,@,#)",
        U7 "U7(@,#,@,#)",
        U8 "U8(@,#,#)",
        U9 "U9(@,#,@,#)",
        U10 "U10(@,#,@,#)",
        U11 "U11(@,#,@,#)",
        U12 "U12(@,#,@,#)",
        U13 "U13(@,#,@)",
        U14Pushed "U14(@,pushed)",
        U14Closed "U14(@,closed(#))",
        V1 "V1",
        V2 "V2(#)",
        V3 "V3(#,@)",
        V4 "V4(#,@,#)",
        V5 "V5(#)",
        V6 "V6(#,@,#)",
        V7 "V7(#,@,#,@)",
        V8 "V8(#,@,@,#)",
        V9 "V9(#,@,#)",
        V10 "V10(#,@)",
        V11 "V11(#,@)",
        V12 "V12(#,@,#)",
        V13 "V13(@,#,#)",
        V14 "V14(@,#,#)",
        V15 "V15(@,#)",
    }

    NEVER_REACHED {
        U15 "U15(@,@,#)",
    }

    LOOKERS {
        Len1 "len1",
        Len2 "len2(#)",
        Len3 "len3(#,#)",
        Empty1 "empty1",
        Empty2 "empty2(#)",
        Full1 "full1",
        Full2 "full2(#)",
        Close1 "close1",
        IsClosed1 "isclosed1",
    }
}

/// The most words that stand in one place.
const MOST_WORDS: usize = 4;

/// How many words a text has.
const fn words(text: &str) -> usize {
    let (mut at, mut count) = (0, 0);
    while at < text.len() {
        count += matches!(text.as_bytes()[at], b'#' | b'@') as usize;
        at += 1;
    }
    count
}

/// The number of no block.
pub const NO_BLOCK: usize = usize::MAX;

/// The word for no block.
pub const NONE: u64 = NO_BLOCK as u64;

/// A block's number as it is printed.
pub struct ShownBlock(pub u64);

impl fmt::Display for ShownBlock {
    fn fmt(&self, f: &mut fmt::Formatter<'_>) -> fmt::Result {
        match self.0 {
            NONE => f.write_str("-"),
            number => fmt::Display::fmt(&number, f),
        }
    }
}

impl Kind {
    fn text(self) -> &'static str {
        Kind::TEXTS[self as usize]
    }

    /// The text without its words; with them if there is more in the brackets.
    pub fn name(self) -> &'static str {
        match self.text().split_once('(') {
            Some((name, words)) if !words.contains(char::is_alphabetic) => name,
            _ => self.text(),
        }
    }

    /// The kind with no word, or with those that the table above has room for.
    pub fn alone(self) -> State {
        self.with(&[])
    }

    pub fn with(self, words: &[u64]) -> State {
        assert_eq!(words.len(), Kind::WORDS[self as usize]);
        let mut held = [0; MOST_WORDS];
        held[..words.len()].copy_from_slice(words);
        State { kind: self, words: held }
    }
}

/// A place or answer with its words.
#[derive(Clone, Copy, Debug, PartialEq, Eq)]
pub struct State {
    pub kind: Kind,
    words: [u64; MOST_WORDS],
}

impl fmt::Display for State {
    fn fmt(&self, f: &mut fmt::Formatter<'_>) -> fmt::Result {
        let mut words = self.words.iter();
        for part in self.kind.text().split_inclusive(['#', '@']) {
            if let Some(text) = part.strip_suffix('#') {
                write!(f, "{text}{}", words.next().expect("counted by `with`"))?;
            } else if let Some(text) = part.strip_suffix('@') {
                write!(f, "{text}{}", ShownBlock(*words.next().expect("counted by `with`")))?;
            } else {
                f.write_str(part)?;
            }
        }
        Ok(())
    }
}
