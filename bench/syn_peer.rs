//! A rewriter over the crate `syn`, to be timed beside `ssr` by `beside_syn.py`, which builds it.
//!
//!     syn_peer parse|unwrap|swap < FILE
//!
//! Reads a file from standard input and writes its new text to standard output, with status 0; a file that `syn` refuses is
//! refused with status 1. `parse` builds the tree and writes nothing. `unwrap` does what the rule
//! `$a.unwrap() ==>> $a.expect("here")` does, and `swap` what `$a + $b ==>> $b + $a` does, but that it drops the comments
//! between the tokens of a match. Each is written by hand for its rule, as one writes such a tool today.
use std::io::{self, Read, Write};
use std::process::exit;

use proc_macro2::{LineColumn, Span};
use syn::spanned::Spanned;
use syn::visit::{self, Visit};
use syn::{BinOp, Expr, ExprBinary, ExprMethodCall};

/// A text, with the byte at which each of its lines begins, and whether the line is ASCII.
struct Source<'a> {
    text: &'a str,
    lines: Vec<(usize, bool)>,
}

impl<'a> Source<'a> {
    fn new(text: &'a str) -> Self {
        let mut lines = Vec::new();
        let mut start = 0;
        for line in text.split_inclusive('\n') {
            lines.push((start, line.is_ascii()));
            start += line.len();
        }
        Source { text, lines }
    }

    /// The byte of a place that `syn` tells by a line and by characters.
    fn byte(&self, place: LineColumn) -> usize {
        let (start, is_ascii) = self.lines[place.line - 1];
        if is_ascii {
            return start + place.column;
        }
        self.text[start..].char_indices().nth(place.column).map_or(self.text.len(), |(byte, _)| start + byte)
    }

    fn start(&self, span: Span) -> usize {
        self.byte(span.start())
    }

    fn end(&self, span: Span) -> usize {
        self.byte(span.end())
    }

    /// Where an expression begins. `Spanned` alone would write all of its tokens anew.
    fn start_of(&self, expr: &Expr) -> usize {
        match expr {
            Expr::Binary(binary) => self.start_of(&binary.left),
            Expr::MethodCall(call) => self.start_of(&call.receiver),
            Expr::Call(call) => self.start_of(&call.func),
            Expr::Index(index) => self.start_of(&index.expr),
            Expr::Field(field) => self.start_of(&field.base),
            Expr::Paren(paren) => self.start(paren.paren_token.span),
            Expr::Lit(literal) => self.start(literal.lit.span()),
            _ => self.start(expr.span()),
        }
    }

    /// Where it ends.
    fn end_of(&self, expr: &Expr) -> usize {
        match expr {
            Expr::Binary(binary) => self.end_of(&binary.right),
            Expr::MethodCall(call) => self.end(call.paren_token.span),
            Expr::Call(call) => self.end(call.paren_token.span),
            Expr::Index(index) => self.end(index.bracket_token.span),
            Expr::Field(field) => self.end(field.member.span()),
            Expr::Paren(paren) => self.end(paren.paren_token.span),
            Expr::Lit(literal) => self.end(literal.lit.span()),
            _ => self.end(expr.span()),
        }
    }

    /// A part of the text with the edits made, which stand in order.
    fn edited(&self, start: usize, end: usize, edits: &[(usize, usize, String)]) -> String {
        let mut out = String::with_capacity(end - start);
        let mut done = start;
        for (from, to, text) in edits {
            out.push_str(&self.text[done..*from]);
            out.push_str(text);
            done = *to;
        }
        out.push_str(&self.text[done..end]);
        out
    }
}

/// `$a.unwrap() ==>> $a.expect("here")`: what stands behind the receiver is replaced.
struct Unwraps<'a> {
    source: &'a Source<'a>,
    edits: Vec<(usize, usize, String)>,
}

impl<'ast> Visit<'ast> for Unwraps<'_> {
    fn visit_expr_method_call(&mut self, call: &'ast ExprMethodCall) {
        visit::visit_expr_method_call(self, call);
        if call.method == "unwrap" && call.args.is_empty() && call.turbofish.is_none() && call.attrs.is_empty() {
            let dot = self.source.start(call.dot_token.spans[0]);
            let receiver = self.source.text[..dot].trim_end().len();
            self.edits.push((receiver, self.source.end(call.paren_token.span), String::from(".expect(\"here\")")));
        }
    }
}

/// `$a + $b ==>> $b + $a`: the outermost sums, the inner ones rewritten likewise.
struct Swaps<'a> {
    source: &'a Source<'a>,
    edits: Vec<(usize, usize, String)>,
}

impl Swaps<'_> {
    /// An operand with the sums in it rewritten.
    fn operand(&self, expr: &Expr) -> String {
        let mut inner = Swaps { source: self.source, edits: Vec::new() };
        inner.visit_expr(expr);
        let text = self.source.edited(self.source.start_of(expr), self.source.end_of(expr), &inner.edits);
        if matches!(expr, Expr::Binary(ExprBinary { op: BinOp::Add(_) | BinOp::Sub(_), .. })) {
            format!("({text})")
        } else {
            text
        }
    }
}

impl<'ast> Visit<'ast> for Swaps<'_> {
    fn visit_expr_binary(&mut self, binary: &'ast ExprBinary) {
        if !matches!(binary.op, BinOp::Add(_)) || !binary.attrs.is_empty() {
            return visit::visit_expr_binary(self, binary);
        }
        let text = format!("{} + {}", self.operand(&binary.right), self.operand(&binary.left));
        self.edits.push((self.source.start_of(&binary.left), self.source.end_of(&binary.right), text));
    }
}

fn main() -> io::Result<()> {
    let mut text = String::new();
    io::stdin().read_to_string(&mut text)?;
    let file = syn::parse_file(&text).unwrap_or_else(|error| {
        eprintln!("{error}");
        exit(1)
    });
    let source = Source::new(&text);
    let edits = match std::env::args().nth(1).as_deref() {
        Some("parse") => return Ok(()),
        Some("unwrap") => {
            let mut visitor = Unwraps { source: &source, edits: Vec::new() };
            visitor.visit_file(&file);
            visitor.edits
        }
        Some("swap") => {
            let mut visitor = Swaps { source: &source, edits: Vec::new() };
            visitor.visit_file(&file);
            visitor.edits
        }
        _ => {
            eprintln!("usage: syn_peer parse|unwrap|swap < FILE");
            exit(2)
        }
    };
    io::stdout().write_all(source.edited(0, text.len(), &edits).as_bytes())
}
