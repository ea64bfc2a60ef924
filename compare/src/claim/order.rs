//! Claims of one program, compared mask by mask.

use super::*;

impl Claim {
    /// Every mask, in no order that a text has.
    fn masks(&self) -> impl Iterator<Item = &u64> {
        let storage = self.fields.iter().flatten().chain(&self.statics);
        self.states.iter().chain(storage).chain(&self.returned).chain(&self.leaving)
    }

    fn masks_mut(&mut self) -> impl Iterator<Item = &mut u64> {
        let storage = self.fields.iter_mut().flatten().chain(&mut self.statics);
        self.states.iter_mut().chain(storage).chain(&mut self.returned).chain(&mut self.leaving)
    }

    /// Whether each mask is a subset of the other claim's.
    pub fn is_within(&self, other: &Claim) -> bool {
        self.masks().zip(other.masks()).all(|(mask, other)| mask & !other == 0)
    }

    /// The common part, mask by mask, of two claims.
    pub fn common(mut self, other: &Claim) -> Claim {
        self.masks_mut().zip(other.masks()).for_each(|(mask, other)| *mask &= other);
        self
    }

    /// The first mask that is no subset of the other claim's, in the order of
    /// the text: its frame, its place in it, and both masks.
    pub fn outside(&self, other: &Claim, program: &Program) -> Option<(Vec<u8>, usize, [u64; 2])> {
        let frames = self.frames(program).into_iter().zip(other.frames(program));
        frames.into_iter().find_map(|(this, that)| {
            let mut masks = this.masks.iter().zip(&that.masks);
            let place = masks.position(|(mask, other)| mask & !other != 0)?;
            Some((this.head, place, [this.masks[place], that.masks[place]]))
        })
    }
}

#[cfg(test)]
mod tests {
    use crate::assembly::{main_method, program, return_void};
    use crate::claim::{Claim, OTHER, ZERO};

    #[test]
    fn masks_are_compared_one_by_one() {
        let program = program(&[0], &[1], 1, vec![main_method(1, vec![return_void()])]);
        let mut one = Claim::empty(&program);
        one.row_mut(0, 0)[0] = ZERO | 1;
        one.fields[0][1] = ZERO | 2;
        one.leaving[0] = 1;
        let mut other = one.clone();
        assert!(one.is_within(&other) && one.outside(&other, &program).is_none());
        other.row_mut(0, 0)[0] = ZERO | OTHER;
        other.fields[0][1] = 2;
        other.returned[0] = 1;
        assert!(!one.is_within(&other) && !other.is_within(&one));
        let masks = [ZERO | 1, ZERO | OTHER];
        assert_eq!(one.outside(&other, &program), Some((vec![0x11, 0, 0], 0, masks)));
        let common = one.clone().common(&other);
        assert!(common.is_within(&one) && common.is_within(&other));
        assert_eq!(common.row(0, 0), [ZERO, 0]);
        assert_eq!((common.fields[0][1], common.returned[0], common.leaving[0]), (2, 0, 1));
    }
}
