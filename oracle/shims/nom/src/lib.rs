//! Stand-in for nom 8, with exactly what rphonetic's `rules_parser.rs` uses,
//! on `&str` input and with `nom::error::Error<&str>`, `complete` versions only.
//! Every parser follows nom 8's documented behaviour on `&str`:
//!   * `alt` tries the next on `Err::Error` only (there is nothing else here);
//!   * `opt` gives `None` and the untouched input on an error;
//!   * `take_until` finds the first occurrence, which may be at 0 (empty result),
//!     and fails where there is none;
//!   * `is_not`, `take_till1`, `take_while1`, `alpha1`, `space1` want one character
//!     at least and may go to the end of the input;
//!   * `alpha1` is ASCII letters, `space1` is space and tab, `crlf` is "\r\n".

pub mod error {
    #[derive(Debug, Clone, Copy, PartialEq, Eq)]
    pub enum ErrorKind {
        Tag,
        TakeUntil,
        IsNot,
        TakeTill1,
        TakeWhile1,
        Alpha,
        Char,
        CrLf,
        Space,
        Eof,
        MapOpt,
    }
    #[derive(Debug, Clone, PartialEq, Eq)]
    pub struct Error<I> {
        pub input: I,
        pub code: ErrorKind,
    }
}

#[derive(Debug, Clone, PartialEq, Eq)]
pub enum Err<E> {
    Error(E),
}

pub type IResult<I, O, E = error::Error<I>> = Result<(I, O), Err<E>>;

pub trait Parser<Input> {
    type Output;
    type Error;
    fn parse(&mut self, input: Input) -> IResult<Input, Self::Output, Self::Error>;
}

impl<I, O, E, F: FnMut(I) -> IResult<I, O, E>> Parser<I> for F {
    type Output = O;
    type Error = E;
    fn parse(&mut self, input: I) -> IResult<I, O, E> {
        self(input)
    }
}

macro_rules! tuple_parser { ($($p:ident $v:ident),+) => {
    impl<I, Er, $($p: Parser<I, Error = Er>),+> Parser<I> for ($($p,)+) {
        type Output = ($($p::Output,)+);
        type Error = Er;
        fn parse(&mut self, input: I) -> IResult<I, Self::Output, Er> {
            #[allow(non_snake_case)]
            let ($($p,)+) = self;
            $( let (input, $v) = $p.parse(input)?; )+
            Ok((input, ($($v,)+)))
        }
    }
}; }
tuple_parser!(A a, B b);
tuple_parser!(A a, B b, C c);
tuple_parser!(A a, B b, C c, D d);

type E<'a> = error::Error<&'a str>;
fn fail<'a, O>(input: &'a str, code: error::ErrorKind) -> IResult<&'a str, O> {
    Err(Err::Error(error::Error { input, code }))
}
/// nom's `split_at_position1_complete`
fn span1<'a>(
    i: &'a str,
    stop: impl Fn(char) -> bool,
    code: error::ErrorKind,
) -> IResult<&'a str, &'a str> {
    match i.find(stop) {
        Some(0) => fail(i, code),
        Some(n) => Ok((&i[n..], &i[..n])),
        None if i.is_empty() => fail(i, code),
        None => Ok((&i[i.len()..], i)),
    }
}

pub mod bytes {
    pub mod complete {
        use crate::{error::ErrorKind, fail, span1, Parser, E};
        pub fn tag<'a>(t: &'static str) -> impl Parser<&'a str, Output = &'a str, Error = E<'a>> {
            move |i: &'a str| match i.strip_prefix(t) {
                Some(rest) => Ok((rest, &i[..t.len()])),
                None => fail(i, ErrorKind::Tag),
            }
        }
        pub fn take_until<'a>(
            t: &'static str,
        ) -> impl Parser<&'a str, Output = &'a str, Error = E<'a>> {
            move |i: &'a str| match i.find(t) {
                Some(n) => Ok((&i[n..], &i[..n])),
                None => fail(i, ErrorKind::TakeUntil),
            }
        }
        pub fn is_not<'a>(
            set: &'static str,
        ) -> impl Parser<&'a str, Output = &'a str, Error = E<'a>> {
            move |i: &'a str| span1(i, |c| set.contains(c), ErrorKind::IsNot)
        }
        pub fn take_till1<'a, F: Fn(char) -> bool>(
            f: F,
        ) -> impl Parser<&'a str, Output = &'a str, Error = E<'a>> {
            move |i: &'a str| span1(i, &f, ErrorKind::TakeTill1)
        }
        pub fn take_while1<'a, F: Fn(char) -> bool>(
            f: F,
        ) -> impl Parser<&'a str, Output = &'a str, Error = E<'a>> {
            move |i: &'a str| span1(i, |c| !f(c), ErrorKind::TakeWhile1)
        }
    }
}

pub mod character {
    pub mod complete {
        use crate::{error::ErrorKind, fail, span1, IResult, Parser, E};
        pub fn alpha1(i: &str) -> IResult<&str, &str> {
            span1(i, |c| !c.is_ascii_alphabetic(), ErrorKind::Alpha)
        }
        pub fn space1(i: &str) -> IResult<&str, &str> {
            span1(i, |c| !(c == ' ' || c == '\t'), ErrorKind::Space)
        }
        pub fn crlf(i: &str) -> IResult<&str, &str> {
            match i.strip_prefix("\r\n") {
                Some(rest) => Ok((rest, &i[..2])),
                None => fail(i, ErrorKind::CrLf),
            }
        }
        pub fn anychar(i: &str) -> IResult<&str, char> {
            let mut it = i.chars();
            match it.next() {
                Some(c) => Ok((it.as_str(), c)),
                None => fail(i, ErrorKind::Eof),
            }
        }
        pub fn char<'a>(want: char) -> impl Parser<&'a str, Output = char, Error = E<'a>> {
            move |i: &'a str| match i.strip_prefix(want) {
                Some(rest) => Ok((rest, want)),
                None => fail(i, ErrorKind::Char),
            }
        }
    }
}

pub mod combinator {
    use crate::{error::ErrorKind, fail, Err, IResult, Parser, E};
    pub fn eof(i: &str) -> IResult<&str, &str> {
        if i.is_empty() {
            Ok((i, i))
        } else {
            fail(i, ErrorKind::Eof)
        }
    }
    pub fn map<'a, P, O, F>(mut p: P, mut f: F) -> impl Parser<&'a str, Output = O, Error = E<'a>>
    where
        P: Parser<&'a str, Error = E<'a>>,
        F: FnMut(P::Output) -> O,
    {
        move |i: &'a str| {
            let (r, o) = p.parse(i)?;
            Ok((r, f(o)))
        }
    }
    pub fn map_opt<'a, P, O, F>(
        mut p: P,
        mut f: F,
    ) -> impl Parser<&'a str, Output = O, Error = E<'a>>
    where
        P: Parser<&'a str, Error = E<'a>>,
        F: FnMut(P::Output) -> Option<O>,
    {
        move |i: &'a str| {
            let (r, o) = p.parse(i)?;
            match f(o) {
                Some(o) => Ok((r, o)),
                None => fail(i, ErrorKind::MapOpt),
            }
        }
    }
    pub fn opt<'a, P>(mut p: P) -> impl Parser<&'a str, Output = Option<P::Output>, Error = E<'a>>
    where
        P: Parser<&'a str, Error = E<'a>>,
    {
        move |i: &'a str| match p.parse(i) {
            Ok((r, o)) => Ok((r, Some(o))),
            Err(Err::Error(_)) => Ok((i, None)),
        }
    }
    pub fn value<'a, P, V: Clone>(v: V, mut p: P) -> impl Parser<&'a str, Output = V, Error = E<'a>>
    where
        P: Parser<&'a str, Error = E<'a>>,
    {
        move |i: &'a str| {
            let (r, _) = p.parse(i)?;
            Ok((r, v.clone()))
        }
    }
}

pub mod sequence {
    use crate::{Parser, E};
    pub fn delimited<'a, A, B, C>(
        mut a: A,
        mut b: B,
        mut c: C,
    ) -> impl Parser<&'a str, Output = B::Output, Error = E<'a>>
    where
        A: Parser<&'a str, Error = E<'a>>,
        B: Parser<&'a str, Error = E<'a>>,
        C: Parser<&'a str, Error = E<'a>>,
    {
        move |i: &'a str| {
            let (i, _) = a.parse(i)?;
            let (i, o) = b.parse(i)?;
            let (i, _) = c.parse(i)?;
            Ok((i, o))
        }
    }
    pub fn pair<'a, A, B>(
        mut a: A,
        mut b: B,
    ) -> impl Parser<&'a str, Output = (A::Output, B::Output), Error = E<'a>>
    where
        A: Parser<&'a str, Error = E<'a>>,
        B: Parser<&'a str, Error = E<'a>>,
    {
        move |i: &'a str| {
            let (i, x) = a.parse(i)?;
            let (i, y) = b.parse(i)?;
            Ok((i, (x, y)))
        }
    }
    pub fn preceded<'a, A, B>(
        mut a: A,
        mut b: B,
    ) -> impl Parser<&'a str, Output = B::Output, Error = E<'a>>
    where
        A: Parser<&'a str, Error = E<'a>>,
        B: Parser<&'a str, Error = E<'a>>,
    {
        move |i: &'a str| {
            let (i, _) = a.parse(i)?;
            b.parse(i)
        }
    }
    pub fn terminated<'a, A, B>(
        mut a: A,
        mut b: B,
    ) -> impl Parser<&'a str, Output = A::Output, Error = E<'a>>
    where
        A: Parser<&'a str, Error = E<'a>>,
        B: Parser<&'a str, Error = E<'a>>,
    {
        move |i: &'a str| {
            let (i, o) = a.parse(i)?;
            let (i, _) = b.parse(i)?;
            Ok((i, o))
        }
    }
    pub fn separated_pair<'a, A, S, B>(
        mut a: A,
        mut s: S,
        mut b: B,
    ) -> impl Parser<&'a str, Output = (A::Output, B::Output), Error = E<'a>>
    where
        A: Parser<&'a str, Error = E<'a>>,
        S: Parser<&'a str, Error = E<'a>>,
        B: Parser<&'a str, Error = E<'a>>,
    {
        move |i: &'a str| {
            let (i, x) = a.parse(i)?;
            let (i, _) = s.parse(i)?;
            let (i, y) = b.parse(i)?;
            Ok((i, (x, y)))
        }
    }
}

pub mod branch {
    use crate::{Err, IResult, Parser};
    pub struct Choice<L>(L);
    pub fn alt<L>(l: L) -> Choice<L> {
        Choice(l)
    }
    impl<I: Clone, O, Er, A, B> Parser<I> for Choice<(A, B)>
    where
        A: Parser<I, Output = O, Error = Er>,
        B: Parser<I, Output = O, Error = Er>,
    {
        type Output = O;
        type Error = Er;
        fn parse(&mut self, i: I) -> IResult<I, O, Er> {
            match self.0 .0.parse(i.clone()) {
                Ok(x) => Ok(x),
                Err(Err::Error(_)) => self.0 .1.parse(i),
            }
        }
    }
    impl<I: Clone, O, Er, A, B, C> Parser<I> for Choice<(A, B, C)>
    where
        A: Parser<I, Output = O, Error = Er>,
        B: Parser<I, Output = O, Error = Er>,
        C: Parser<I, Output = O, Error = Er>,
    {
        type Output = O;
        type Error = Er;
        fn parse(&mut self, i: I) -> IResult<I, O, Er> {
            match self.0 .0.parse(i.clone()) {
                Ok(x) => return Ok(x),
                Err(Err::Error(_)) => {}
            }
            match self.0 .1.parse(i.clone()) {
                Ok(x) => Ok(x),
                Err(Err::Error(_)) => self.0 .2.parse(i),
            }
        }
    }
}
