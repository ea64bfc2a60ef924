//! Calls and handlers.

use super::*;
use compare::program::Handler;

#[test]
fn calls() {
    assert!(allowed(INVOKE_VIRTUAL, 0xff, 4, 0, 0) && allowed(INVOKE_VIRTUAL, 0, 1, 3, 0));
    assert!(!allowed(INVOKE_VIRTUAL, 0, 0, 0, 0) && !allowed(INVOKE_VIRTUAL, 0, 1, 4, 0));
    assert!(!allowed(INVOKE_VIRTUAL, 0, 5, 0, 0) && !allowed(INVOKE_VIRTUAL, 0, 0xff, 1, 0));
    assert!(allowed(INVOKE_STATIC, 0, 0, 0, 0) && !allowed(INVOKE_STATIC, 0, 0, 1, 0));
    assert!(allowed(INVOKE_STATIC, 1, 2, 2, 0) && !allowed(INVOKE_STATIC, 1, 2, 3, 0));
    assert!(!allowed(INVOKE_STATIC, 1, 1, 0, 0) && !allowed(INVOKE_STATIC, 1, 3, 0, 0));
    assert!(!allowed(INVOKE_STATIC, 2, 0, 0, 0));
    // A virtual callee is refused at the call, a callee bad in another way at
    // its own line.
    let with_callee = |change: fn(&mut Method)| {
        changed(|p| {
            p.methods[0].code[0] = Instruction::new(INVOKE_STATIC, 1, 2, 0, 0);
            change(&mut p.methods[1]);
        })
    };
    assert_eq!(with_callee(|callee| callee.kind = VIRTUAL), Err((5, 11)));
    assert_eq!(with_callee(|callee| callee.kind = 2), Err((5, 11)));
    assert_eq!(with_callee(|callee| callee.registers = 1), Err((5, 14)));
}

#[test]
fn handlers() {
    let handler = |from, to, target, class| {
        changed(|p| p.methods[0].handlers = vec![Handler::new(from, to, target, class)])
    };
    assert_eq!(handler(0, 3, 2, 5), Ok(()));
    for [from, to, target, class] in
        [[1, 1, 0, 0], [2, 1, 0, 0], [0, 4, 0, 0], [0, 1, 3, 0], [0, 1, 0, 6]]
    {
        assert_eq!(handler(from, to, target, class), Err((5, 14)));
    }
}

/// The first method has its handlers from line 14 on.
#[test]
fn the_first_bad_handler_in_the_text_is_refused() {
    let bad = [Handler::new(1, 1, 0, 0), Handler::new(0, 1, 0, 6), Handler::new(0, 4, 0, 0)];
    let with = |places: &[(usize, Handler)]| {
        changed(|p| {
            p.methods[0].handlers = vec![Handler::new(0, 3, 2, 5); 6];
            for &(place, handler) in places {
                p.methods[0].handlers[place] = handler;
            }
        })
    };
    assert_eq!(with(&[]), Ok(()));
    assert_eq!(with(&[(1, bad[0]), (4, bad[1])]), Err((5, 15)));
    assert_eq!(with(&[(1, bad[1]), (4, bad[0])]), Err((5, 15)));
    assert_eq!(with(&[(0, bad[2]), (5, bad[2])]), Err((5, 14)));
    assert_eq!(with(&[(4, bad[0]), (5, bad[2])]), Err((5, 18)));
    assert_eq!(with(&[(5, bad[1])]), Err((5, 19)));
    let in_both = changed(|p| {
        p.methods[0].handlers = vec![Handler::new(0, 3, 2, 5), bad[0], Handler::new(0, 1, 0, 0)];
        p.methods[1].handlers = vec![bad[2], Handler::new(0, 1, 0, 0)];
    });
    assert_eq!(in_both, Err((5, 15)));
    let in_the_second = changed(|p| {
        p.methods[0].handlers = vec![Handler::new(0, 3, 2, 5); 3];
        p.methods[1].handlers = vec![bad[2], bad[1]];
    });
    assert_eq!(in_the_second, Err((5, 19)));
}
