//! A copy of a slice that lies with one end against a page that cannot be touched,
//! and a guard around it.

use std::ptr;

use super::pages::Pages;

/// What is left of the pages holds this.
const GUARD: u8 = 0xA7;

#[derive(Clone, Copy, Debug, PartialEq, Eq)]
pub enum End {
    /// The slice begins after a page that cannot be touched. Of length 0 it is null.
    Front,
    /// The slice ends before such a page.
    Back,
}

pub struct Lent<T> {
    pages: Pages,
    begin: usize,
    length: usize,
    pointer: *mut T,
}

impl<T: Copy> Lent<T> {
    pub fn of(content: &[T], end: End) -> Self {
        let bytes = size_of_val(content);
        let mut pages = Pages::of(bytes);
        pages.fill(GUARD);
        let begin = match end {
            End::Front => 0,
            End::Back => pages.bytes().len() - bytes,
        };
        let at = pages.at(begin).cast::<T>();
        // SAFETY: so many bytes are left in the pages, which are new, and the begin is
        // a multiple of the number's size from a page's end.
        unsafe { ptr::copy_nonoverlapping(content.as_ptr(), at, content.len()) };
        let null = content.is_empty() && end == End::Front;
        Lent {
            pages,
            begin,
            length: content.len(),
            pointer: if null { ptr::null_mut() } else { at },
        }
    }

    /// To be read only: a write ends the process.
    pub fn read_only(content: &[T], end: End) -> Self {
        let mut lent = Lent::of(content, end);
        lent.pages.read_only();
        lent
    }

    pub fn pointer(&self) -> *mut T {
        self.pointer
    }

    pub fn length(&self) -> usize {
        self.length
    }

    /// What the slice holds now goes back; fails where the guard around it is gone.
    pub fn give_back(&mut self, content: &mut [T]) {
        assert_eq!(content.len(), self.length);
        let (begin, bytes) = (self.begin, size_of_val(content));
        let held = self.pages.bytes();
        let around = held[..begin].iter().chain(&held[begin + bytes..]);
        assert!(
            around.copied().all(|byte| byte == GUARD),
            "the guard is gone"
        );
        let at = self.pages.at(begin).cast::<T>();
        // SAFETY: `of` has put as many numbers there; the caller's slice is elsewhere.
        unsafe { ptr::copy_nonoverlapping(at, content.as_mut_ptr(), self.length) };
    }
}

#[cfg(test)]
mod tests {
    use super::*;

    #[test]
    fn slices_lie_against_the_pages() {
        for length in [1, 7, 512, 513] {
            let content = vec![3_u64; length];
            let front = Lent::of(&content, End::Front);
            let back = Lent::of(&content, End::Back);
            assert_eq!(front.pointer() as usize % 4_096, 0);
            let after = back.pointer().wrapping_add(length);
            assert_eq!(after as usize % 4_096, 0);
        }
    }

    #[test]
    fn what_was_written_is_given_back() {
        for end in [End::Front, End::Back] {
            let mut content = [1_u16, 2, 3];
            let mut lent = Lent::of(&content, end);
            // SAFETY: the second of three numbers.
            unsafe { *lent.pointer().add(1) = 9 };
            lent.give_back(&mut content);
            assert_eq!(content, [1, 9, 3]);
        }
    }

    #[test]
    #[should_panic(expected = "the guard is gone")]
    fn a_write_before_the_slice_is_found() {
        let mut lent = Lent::of(&[1_u16, 2, 3], End::Back);
        // SAFETY: of the same page.
        unsafe { *lent.pointer().sub(1) = 9 };
        lent.give_back(&mut [0; 3]);
    }

    #[test]
    fn nothing_is_lent_as_null_or_at_the_page() {
        assert!(Lent::<u8>::of(&[], End::Front).pointer().is_null());
        assert!(!Lent::<u8>::of(&[], End::Back).pointer().is_null());
    }
}
