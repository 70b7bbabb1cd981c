//! One node offered to the Rust: each kind goes to the Rust's own constructor
//! of that name.

use crate::node::{DisconnectConstructible, NoDisconnect};
use crate::record::{kind, Record};
use crate::types::{Arrow, Context, Error};
use crate::value::Word;

/// The arrow of a well-formed node whose children are among `arrows`, or the
/// Rust's error. After an error the context may be half changed.
pub fn offer<'brand>(
    ctx: &Context<'brand>,
    arrows: &[Arrow<'brand>],
    node: &Record,
) -> Result<Arrow<'brand>, Error> {
    let a = || &arrows[node.a as usize];
    let b = || &arrows[node.b as usize];
    match node.kind {
        kind::IDEN => Ok(Arrow::iden(ctx)),
        kind::UNIT => Ok(Arrow::unit(ctx)),
        kind::INJL => Ok(Arrow::injl(a())),
        kind::INJR => Ok(Arrow::injr(a())),
        kind::TAKE => Ok(Arrow::take(a())),
        kind::DROP => Ok(Arrow::drop_(a())),
        kind::COMP => Arrow::comp(a(), b()),
        kind::CASE => Arrow::case(a(), b()),
        kind::ASSERTL => Arrow::assertl(a()),
        kind::ASSERTR => Arrow::assertr(a()),
        kind::PAIR => Arrow::pair(a(), b()),
        kind::DISCONNECT => Arrow::disconnect(a(), b()),
        kind::DISCONNECT_ONE => Arrow::disconnect(a(), &NoDisconnect),
        kind::WITNESS => Ok(Arrow::witness(ctx)),
        kind::FAIL => Ok(Arrow::fail(ctx)),
        kind::WORD => Ok(Arrow::const_word(ctx, &Word::of(node.a as usize))),
        other => panic!("kind {other} is no node"),
    }
}

/// The arrows of nodes that were kept before.
///
/// # Panics
///
/// If the Rust now refuses one of them.
pub fn replay<'brand>(ctx: &Context<'brand>, kept: &[Record]) -> Vec<Arrow<'brand>> {
    let mut arrows = Vec::with_capacity(kept.len() + 1);
    for node in kept {
        match offer(ctx, &arrows, node) {
            Ok(arrow) => arrows.push(arrow),
            Err(error) => panic!("a kept node is refused in a fresh context: {error}"),
        }
    }
    arrows
}
