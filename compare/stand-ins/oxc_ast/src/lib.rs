//! Stands in for the crate of this name: a string literal is a text with a place in some source.

pub mod ast {
    use oxc_str::JSStr;

    #[derive(Clone, Copy, Default)]
    pub struct Span {
        pub start: u32,
    }

    pub struct StringLiteral<'a> {
        pub span: Span,
        pub value: JSStr<'a>,
    }
}
