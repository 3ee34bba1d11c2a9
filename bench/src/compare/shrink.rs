//! Smaller cases: with parts taken out, and with smaller numbers.

/// A value that can be made smaller.
pub trait Smaller: Clone {
    /// Values that are smaller, the smallest first. Following them always comes to an end.
    fn smaller(&self) -> Box<dyn Iterator<Item = Self> + '_>;
}

/// Numbers become zero, then half, then one less.
macro_rules! numbers {
    ($($number:ty)*) => {$(
        impl Smaller for $number {
            fn smaller(&self) -> Box<dyn Iterator<Item = Self> + '_> {
                let number = *self;
                let less = [0, number / 2, number.saturating_sub(1)];
                Box::new(less.into_iter().filter(move |&less| less < number))
            }
        }
    )*};
}
numbers!(u8 u16 u32 u64 usize);

impl Smaller for bool {
    fn smaller(&self) -> Box<dyn Iterator<Item = bool> + '_> {
        Box::new(self.then_some(false).into_iter())
    }
}

/// How long a row is at most for stretches of every small size to be taken out anywhere.
const SHORT: usize = 64;
/// The largest of these sizes.
const STRETCH: usize = 8;

/// Rows lose a half, a quarter, and so on down to one item, short ones also any short stretch; then
/// items become smaller in place.
impl<T: Smaller> Smaller for Vec<T> {
    fn smaller(&self) -> Box<dyn Iterator<Item = Vec<T>> + '_> {
        let sizes = std::iter::successors(Some(self.len()), |size| Some(size / 2));
        let halves = sizes
            .take_while(|&size| size > 0)
            .flat_map(move |size| (0..self.len()).step_by(size).map(move |from| (from, size)));
        let largest = if self.len() > SHORT { 0 } else { STRETCH.min(self.len()) };
        let stretches = (2..=largest)
            .rev()
            .flat_map(move |size| (0..=self.len() - size).map(move |from| (from, size)));
        let fewer = halves.chain(stretches).map(move |(from, size)| {
            let to = (from + size).min(self.len());
            [&self[..from], &self[to..]].concat()
        });
        Box::new(fewer.chain(in_place(self)))
    }
}

/// Rows of a fixed length: the items alone become smaller.
impl<T: Smaller, const N: usize> Smaller for [T; N] {
    fn smaller(&self) -> Box<dyn Iterator<Item = [T; N]> + '_> {
        let rows = in_place(self);
        Box::new(rows.filter_map(|row| row.try_into().ok()))
    }
}

/// A row with one item smaller.
fn in_place<T: Smaller>(row: &[T]) -> impl Iterator<Item = Vec<T>> + '_ {
    row.iter().enumerate().flat_map(move |(place, item)| {
        item.smaller().map(move |item| {
            let mut row = row.to_vec();
            row[place] = item;
            row
        })
    })
}

/// A pair becomes smaller in one of its parts.
impl<A: Smaller, B: Smaller> Smaller for (A, B) {
    fn smaller(&self) -> Box<dyn Iterator<Item = (A, B)> + '_> {
        let first = self.0.smaller().map(|first| (first, self.1.clone()));
        let second = self.1.smaller().map(|second| (self.0.clone(), second));
        Box::new(first.chain(second))
    }
}

/// By how much times can all be made earlier so that the earliest, 0 aside, becomes a smaller one.
pub fn earlier(times: impl Iterator<Item = u64>) -> impl Iterator<Item = u64> {
    let earliest = times.filter(|&time| time > 0).min().unwrap_or(0);
    let smaller: Vec<u64> = earliest.smaller().collect();
    smaller.into_iter().map(move |time| earliest - time)
}

/// Makes a struct smaller: each named field in turn, the others as they are.
#[macro_export]
macro_rules! smaller_fields {
    ($value:expr; $($field:ident),*) => {{
        let value = $value;
        let none = std::iter::empty();
        $(
            let none = none.chain(value.$field.smaller().map(move |$field| {
                let mut smaller = value.clone();
                smaller.$field = $field;
                smaller
            }));
        )*
        Box::new(none)
    }};
}

/// Makes one case of an enum smaller: each named field in turn, the others as they are.
#[macro_export]
macro_rules! smaller_case {
    ($kind:ident::$case:ident; $($field:ident),*) => {
        $crate::smaller_case!(@each $kind $case; [$($field),*]; $($field),*)
    };
    (@each $kind:ident $case:ident; $all:tt; $($field:ident),*) => {{
        let none = std::iter::empty();
        $(let none = none.chain($crate::smaller_case!(@one $kind $case; $all; $field));)*
        Box::new(none)
    }};
    (@one $kind:ident $case:ident; [$($all:ident),*]; $field:ident) => {
        $field.smaller().map(move |smaller| {
            $(let $all = $all.clone();)*
            #[allow(unused)]
            let before = $field;
            let $field = smaller;
            $kind::$case { $($all),* }
        })
    };
}

#[cfg(test)]
mod tests {
    use super::*;

    #[test]
    fn numbers_and_flags() {
        assert_eq!(0u8.smaller().count(), 0);
        assert_eq!(1u8.smaller().collect::<Vec<_>>(), [0, 0, 0]);
        assert_eq!(200u16.smaller().collect::<Vec<_>>(), [0, 100, 199]);
        assert_eq!(true.smaller().collect::<Vec<_>>(), [false]);
        assert_eq!(false.smaller().count(), 0);
    }

    #[test]
    fn times() {
        assert_eq!(earlier([0, 9, 8].into_iter()).collect::<Vec<_>>(), [8, 4, 1]);
        assert_eq!(earlier([0, 0].into_iter()).count(), 0);
    }

    #[test]
    fn rows() {
        let row = vec![1u8, 0, 0];
        let smaller: Vec<Vec<u8>> = row.smaller().collect();
        assert_eq!(smaller[0], []);
        assert!(smaller.contains(&vec![1, 0]));
        assert!(smaller.contains(&vec![0, 0]));
        assert!(smaller.contains(&vec![0, 0, 0]));
        assert!(!smaller.contains(&row));
        assert_eq!([0u8; 4].smaller().count(), 0);
        assert_eq!([0u8, 1].smaller().next(), Some([0, 0]));
    }
}
