//! A variant's fields are named only where a switch has found that variant: variants share members in C, and
//! another variant's must not be read.

use std::collections::HashSet;

use crate::mir::{all_statements, bodies, places_read, target_of};
use crate::mir::{Body, Function, Operand, Place, Statement, Step};
use crate::refused::{ensure, Result};

/// A local and the steps to the variant that it is known to be.
type Found = HashSet<(usize, Vec<Step>)>;

pub fn ensure_found(function: &Function) -> Result<()> {
    look(function, &function.body, Found::new())
}

fn look(function: &Function, body: &Body, mut found: Found) -> Result<()> {
    for statement in body {
        for place in places_read(statement).into_iter().chain(target_of(statement)) {
            ensure_known(function, place, &found)?;
        }
        let changed: HashSet<usize> =
            all_statements_of(statement).into_iter().filter_map(target_of).map(|place| place.local).collect();
        let mut after = found.clone();
        after.retain(|(local, _)| !changed.contains(local));
        match statement {
            Statement::Switch { on, arms, default } => {
                for (keys, arm) in arms {
                    look(function, arm, found.iter().cloned().chain(told(on, keys)).collect())?;
                }
                if let Some(arm) = default {
                    look(function, arm, found.clone())?;
                }
            }
            // A later turn begins with what the turn before has left.
            Statement::Loop(inner) => look(function, inner, after.clone())?,
            _ => {
                for inner in bodies(statement) {
                    look(function, inner, found.clone())?;
                }
            }
        }
        found = after;
    }
    Ok(())
}

fn all_statements_of(statement: &Statement) -> Vec<&Statement> {
    let inner = bodies(statement).into_iter().flat_map(all_statements);
    [statement].into_iter().chain(inner).collect()
}

/// What an arm knows: a tag that is one number names that variant.
fn told(on: &Operand, keys: &[u64]) -> Option<(usize, Vec<Step>)> {
    let Operand::Copy(place) = on else { return None };
    let ([steps @ .., Step::Variant(_), Step::Field(0)], [key]) = (&place.steps[..], keys) else {
        return None;
    };
    let steps = steps.iter().cloned().chain([Step::Variant(*key as usize)]).collect();
    Some((place.local, steps))
}

fn ensure_known(function: &Function, place: &Place, found: &Found) -> Result<()> {
    for (k, step) in place.steps.iter().enumerate() {
        if matches!(step, Step::Variant(_)) && place.steps.get(k + 1) != Some(&Step::Field(0)) {
            let known = found.contains(&(place.local, place.steps[..=k].to_vec()));
            ensure!(
                known,
                "{}: a variant's field where the variant is not known, {place:?}",
                function.symbol
            );
        }
    }
    Ok(())
}
