//! What is proved never to be reached is left out: C has no word for it.

use std::collections::HashSet;

use crate::mir::{all_statements, Body, Program, Statement};
use crate::refused::{ensure, Result};

/// Takes it out of every function, and the functions that never return, which only it calls.
pub fn leave_out_the_rest(program: &mut Program) -> Result<()> {
    let mut lost = HashSet::new();
    loop {
        for function in &mut program.functions {
            reach(&mut function.body, &lost);
        }
        let never = program.functions.iter().filter(|f| is_lost(&f.body)).map(|f| f.symbol.clone());
        let never: HashSet<String> = never.collect();
        if never == lost {
            break;
        }
        lost = never;
    }
    program.functions.retain(|function| !lost.contains(&function.symbol));
    for function in &program.functions {
        let all = all_statements(&function.body);
        let left = all.iter().any(|statement| matches!(statement, Statement::Unreachable));
        ensure!(!left, "{}: what is never reached stands among what is", function.symbol);
    }
    Ok(())
}

fn is_lost(body: &Body) -> bool {
    matches!(body[..], [Statement::Unreachable])
}

/// Leaves out of a body what is never reached; all of it, if that is where it leads.
fn reach(body: &mut Body, lost: &HashSet<String>) {
    let all = std::mem::take(body);
    body.extend(all.into_iter().flat_map(|statement| reach_within(statement, lost)));
    if let Some(end) = body.iter().position(|s| matches!(s, Statement::Unreachable)) {
        let straight = |s: &Statement| matches!(s, Statement::Assign(..) | Statement::Call { .. });
        if body[..end].iter().all(straight) {
            *body = vec![Statement::Unreachable];
        }
    }
}

/// What is left of a statement.
fn reach_within(mut statement: Statement, lost: &HashSet<String>) -> Body {
    match &mut statement {
        Statement::Call { callee, .. } if lost.contains(callee) => return vec![Statement::Unreachable],
        Statement::Block(inner) | Statement::Loop(inner) => {
            reach(inner, lost);
            if is_lost(inner) {
                return vec![Statement::Unreachable];
            }
        }
        Statement::If(_, yes, no) => {
            reach(yes, lost);
            reach(no, lost);
            if is_lost(yes) {
                return std::mem::take(no);
            }
            if is_lost(no) {
                return std::mem::take(yes);
            }
        }
        Statement::Switch { arms, default, .. } => {
            arms.iter_mut().for_each(|(_, arm)| reach(arm, lost));
            default.iter_mut().for_each(|arm| reach(arm, lost));
            arms.retain(|(_, arm)| !is_lost(arm));
            *default = default.take().filter(|arm| !is_lost(arm));
            if arms.is_empty() {
                return default.take().unwrap_or(vec![Statement::Unreachable]);
            }
        }
        _ => (),
    }
    vec![statement]
}
