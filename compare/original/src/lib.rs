//! The crate's own printing, over a `Codegen` that has only what the printing needs.
//!
//! `str.rs` and `lib_items.rs` are made by the build script from the crate's source folder. They are never part of this
//! repository.

use std::marker::PhantomData;
use std::{cmp, slice};

use oxc_ast::ast::{Span, StringLiteral};
use oxc_data_structures::code_buffer::CodeBuffer;
use oxc_str::JSStr;

use crate::str::{Quote, cold_branch, is_script_close_tag};

#[allow(dead_code)]
mod str {
    include!(concat!(env!("OUT_DIR"), "/str.rs"));
}

include!(concat!(env!("OUT_DIR"), "/lib_items.rs"));

/// The options that the printing looks at.
#[derive(Clone, Copy, Default)]
pub struct CodegenOptions {
    pub single_quote: bool,
    pub minify: bool,
    pub ascii_only: bool,
}

pub struct Codegen<'a> {
    options: CodegenOptions,
    code: CodeBuffer,
    quote: Quote,
    need_space_before_identifier: usize,
    source: PhantomData<&'a str>,
}

// Annotations and source mappings are not compared.
impl Codegen<'_> {
    fn print_property_key_annotation(&mut self, _start: u32) {}

    fn add_source_mapping(&mut self, _span: Span) {}
}

/// Prints one thing at a time with the crate's functions, and shows what was printed.
pub struct Printer {
    codegen: Codegen<'static>,
}

impl Default for Printer {
    fn default() -> Self {
        Printer {
            codegen: Codegen {
                options: CodegenOptions::default(),
                code: CodeBuffer::default(),
                quote: Quote::Double,
                need_space_before_identifier: 0,
                source: PhantomData,
            },
        }
    }
}

impl Printer {
    /// Begins with an empty buffer, which keeps its room from the last time.
    #[inline]
    fn begin(&mut self, options: CodegenOptions) -> &mut Codegen<'static> {
        self.codegen.quote = if options.single_quote { Quote::Single } else { Quote::Double };
        self.codegen.options = options;
        self.codegen.code.clear();
        &mut self.codegen
    }

    /// # Safety
    ///
    /// The bytes are well-formed WTF-8, and the flag is set precisely when they hold a surrogate.
    #[inline]
    pub unsafe fn string(&mut self, options: CodegenOptions, text: &[u8], lone: bool, allow_backtick: bool) -> &[u8] {
        // SAFETY: as the caller's.
        let text = unsafe { JSStr::new_unchecked(text, lone) };
        self.begin(options).print_string_impl(text, allow_backtick);
        self.codegen.code.as_bytes()
    }

    /// # Safety
    ///
    /// The bytes are well-formed WTF-8, and the flag is set precisely when they hold a surrogate.
    #[inline]
    pub unsafe fn string_as_template(&mut self, options: CodegenOptions, text: &[u8], lone: bool) -> &[u8] {
        // SAFETY: as the caller's.
        let value = unsafe { JSStr::new_unchecked(text, lone) };
        let literal = StringLiteral { span: Span::default(), value };
        self.begin(options).print_string_literal_as_template(&literal);
        self.codegen.code.as_bytes()
    }

    #[inline]
    pub fn template_piece(&mut self, options: CodegenOptions, raw: &str, tagged: bool) -> &[u8] {
        self.begin(options).print_template_quasi_raw(raw, tagged);
        self.codegen.code.as_bytes()
    }

    #[inline]
    pub fn directive(&mut self, options: CodegenOptions, raw: &str) -> &[u8] {
        self.begin(options).print_directive_raw(raw);
        self.codegen.code.as_bytes()
    }

    #[inline]
    pub fn regex_pattern(&mut self, options: CodegenOptions, pattern: &str) -> &[u8] {
        self.begin(options).print_regex_pattern(pattern);
        self.codegen.code.as_bytes()
    }

    #[inline]
    pub fn name(&mut self, options: CodegenOptions, name: &str) -> &[u8] {
        self.begin(options).print_name(name);
        self.codegen.code.as_bytes()
    }
}
