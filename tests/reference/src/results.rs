// What an action yields from its ground operands: the rules of keys, pairs, codes and match.
// Why: refusal 10 is decided here alone, between the operands' sizes and the result's.

use crate::machine::Config;
use crate::model::*;
use crate::term::*;

/// The label of the result, 0 for an action with no value of its own, or 10.
pub fn result(
    draft: &mut Draft,
    config: &Config,
    action: &Action,
    x: Label,
    y: Label,
) -> Result<Label, u8> {
    let (tx, ty) = (draft.term(x), draft.term(y));
    match action.op {
        READ => Ok(config.cells[action.loc as usize].value),
        EXTEND => Ok(draft.put(Term::new(CHAIN, config.cells[action.loc as usize].value, x))),
        SIGN => seal(draft, SIGNATURE, x, ty, INVERSE),
        ENC => seal(draft, ENCRYPTED, x, ty, KEY),
        SYMENC => seal(draft, SYMMETRIC, x, ty, KEY),
        VERIFY => open(tx, SIGNATURE, ty, KEY),
        DEC => open(tx, ENCRYPTED, ty, INVERSE),
        SYMDEC => open(tx, SYMMETRIC, ty, KEY),
        HASH_OP => Ok(draft.put(Term::new(HASH, x, 0))),
        EVAL => Ok(draft.put(Term::new(FUNCTION, action.loc, x))),
        FIRST => fit(tx.kind == PAIR, tx.a),
        SECOND => fit(tx.kind == PAIR, tx.b),
        MATCH => fit(x == y, NUMBER),
        JUMP => fit(tx.kind == CODE, NUMBER),
        NEW => Ok(draft.put(Term::new(NONCE, config.next_nonce as u16, 0))),
        _ => Ok(NUMBER),
    }
}

fn fit(fits: bool, label: Label) -> Result<Label, u8> {
    fits.then_some(label).ok_or(10)
}

/// A term of this kind over x, with the number of a key of the kind it needs.
fn seal(draft: &mut Draft, kind: u16, x: Label, key: Term, needs: u16) -> Result<Label, u8> {
    fit(key.kind == needs, NUMBER)?;
    Ok(draft.put(Term::new(kind, x, key.a)))
}

/// What is inside a sealed term, given the key of the kind and number it needs.
fn open(sealed: Term, kind: u16, key: Term, needs: u16) -> Result<Label, u8> {
    fit(
        sealed.kind == kind && key.kind == needs && sealed.b == key.a,
        sealed.a,
    )
}
