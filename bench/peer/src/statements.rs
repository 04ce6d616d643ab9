//! Statements, and where they and items are taken from.

use proc_macro2::TokenStream;
use quote::{ToTokens, TokenStreamExt};
use syn::parse::{Parse, ParseStream};
use syn::visit::{self, Visit};
use syn::{Block, ImplItemMethod, ItemFn, Stmt, TraitItemMethod};

/// Statements to the end of the input.
pub struct Stmts(Vec<Stmt>);

impl Parse for Stmts {
    fn parse(input: ParseStream) -> syn::Result<Stmts> {
        Ok(Stmts(Block::parse_within(input)?))
    }
}

impl ToTokens for Stmts {
    fn to_tokens(&self, tokens: &mut TokenStream) {
        tokens.append_all(&self.0);
    }
}

/// Collects the bodies of functions, as text.
#[derive(Default)]
struct Bodies(Vec<String>);

impl Bodies {
    fn add(&mut self, body: &Block) {
        self.0.push(body.to_token_stream().to_string());
    }
}

impl<'ast> Visit<'ast> for Bodies {
    fn visit_item_fn(&mut self, function: &'ast ItemFn) {
        self.add(&function.block);
        visit::visit_item_fn(self, function);
    }

    fn visit_impl_item_method(&mut self, method: &'ast ImplItemMethod) {
        self.add(&method.block);
        visit::visit_impl_item_method(self, method);
    }

    fn visit_trait_item_method(&mut self, method: &'ast TraitItemMethod) {
        if let Some(body) = &method.default {
            self.add(body);
        }
        visit::visit_trait_item_method(self, method);
    }
}

/// The body of each function of a file, in braces. Those with a string of several lines are left out.
pub fn bodies(source: &str) -> syn::Result<Vec<String>> {
    let mut bodies = Bodies::default();
    bodies.visit_file(&syn::parse_file(source)?);
    bodies.0.retain(|body| !body.contains('\n'));
    Ok(bodies.0)
}

/// Each item of a file. Those with a string of several lines are left out.
pub fn items(source: &str) -> syn::Result<Vec<String>> {
    let items = syn::parse_file(source)?.items;
    let mut texts: Vec<String> = items.iter().map(|item| item.to_token_stream().to_string()).collect();
    texts.retain(|text| !text.contains('\n'));
    Ok(texts)
}
