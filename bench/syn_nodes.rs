//! Lists the nodes of a file as `syn` reads it, for `nodes.py`, which builds it.
//!
//!     syn_nodes < FILE
//!
//! Writes a line `n START END` for each node and `m START END` for the tokens of each macro call, in bytes. Ends with status 1
//! where `syn` refuses the file.
use std::io::{self, Read, Write};
use std::process::exit;

use proc_macro2::{LineColumn, TokenStream, TokenTree};
use quote::ToTokens;
use syn::visit::{self, Visit};

/// The byte at which each line of a text begins.
struct Lines<'a> {
    text: &'a str,
    starts: Vec<usize>,
}

impl<'a> Lines<'a> {
    fn new(text: &'a str) -> Self {
        let mut starts = vec![0];
        starts.extend(text.bytes().enumerate().filter(|(_, byte)| *byte == b'\n').map(|(at, _)| at + 1));
        Lines { text, starts }
    }

    fn byte(&self, place: LineColumn) -> usize {
        let start = self.starts[place.line - 1];
        self.text[start..].char_indices().nth(place.column).map_or(self.text.len(), |(at, _)| start + at)
    }
}

struct Nodes<'a> {
    lines: Lines<'a>,
    out: Vec<u8>,
}

impl Nodes<'_> {
    /// Lists what has these tokens, and once more without the doc comments in front, which a rule's node doesn't have.
    fn add(&mut self, what: char, tokens: TokenStream) {
        let trees: Vec<TokenTree> = tokens.into_iter().collect();
        self.add_range(what, &trees);
        let mut rest = &trees[..];
        while let [TokenTree::Punct(mark), TokenTree::Group(attribute), behind @ ..] = rest {
            if mark.as_char() != '#' || !attribute.stream().to_string().starts_with("doc =") {
                break;
            }
            rest = behind;
            self.add_range(what, rest);
        }
    }

    fn add_range(&mut self, what: char, trees: &[TokenTree]) {
        let (Some(first), Some(last)) = (trees.first(), trees.last()) else { return };
        let (start, end) = (self.lines.byte(first.span().start()), self.lines.byte(last.span().end()));
        writeln!(self.out, "{what} {start} {end}").expect("memory takes it");
    }
}

/// A visit of each sort of nodes, which lists the node.
macro_rules! listed {
    ($($name:ident: $node:ident,)*) => {
        impl<'ast> Visit<'ast> for Nodes<'_> {
            $(fn $name(&mut self, node: &'ast syn::$node) {
                self.add('n', node.to_token_stream());
                visit::$name(self, node);
            })*

            fn visit_macro(&mut self, call: &'ast syn::Macro) {
                self.add('m', call.tokens.clone());
                self.add('n', call.to_token_stream());
                visit::visit_macro(self, call);
            }
        }
    };
}

listed! {
    visit_expr: Expr,
    visit_stmt: Stmt,
    visit_local: Local,
    visit_item: Item,
    visit_impl_item: ImplItem,
    visit_trait_item: TraitItem,
    visit_foreign_item: ForeignItem,
    visit_pat: Pat,
    visit_type: Type,
    visit_block: Block,
    visit_path: Path,
    visit_lit: Lit,
    visit_arm: Arm,
    visit_field: Field,
    visit_field_value: FieldValue,
    visit_variant: Variant,
    visit_fn_arg: FnArg,
}

fn main() {
    let mut text = String::new();
    if io::stdin().read_to_string(&mut text).is_err() {
        exit(1);
    }
    let Ok(file) = syn::parse_file(&text) else { exit(1) };
    let mut nodes = Nodes { lines: Lines::new(&text), out: Vec::new() };
    nodes.visit_file(&file);
    if io::stdout().write_all(&nodes.out).is_err() {
        exit(1);
    }
}
