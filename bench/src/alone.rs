//! The crate's evaluation alone, without the lookup round it.

/// The form that the crate's own evaluation gives a count, for the rule of a text that it reads; none where its source is not at hand.
#[cfg(evaluation_alone)]
pub fn resolver(text: &str) -> Option<impl Fn(u64) -> usize> {
    let rule = crate::plurals::Resolver::Expr(crate::plurals::Ast::parse(text).expect("the crate reads it"));
    Some(move |n| rule.resolve(n))
}

#[cfg(not(evaluation_alone))]
pub fn resolver(_: &str) -> Option<fn(u64) -> usize> {
    None
}
