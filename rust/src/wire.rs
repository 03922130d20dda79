//! The binary form of requests and answers: numbers of eight bytes, texts and lists.
use crate::{DependencyDirection, RowFault, RowsError};

/// Reads the parts of an answer. The library writes this form, so another one means another library.
pub(crate) struct Reader<'a> {
    left: &'a [u8],
}

impl<'a> Reader<'a> {
    fn bytes(&mut self, count: usize) -> &'a [u8] {
        let Some((bytes, left)) = self.left.split_at_checked(count) else {
            panic!("an answer of feature_graph_c ends early");
        };
        self.left = left;
        bytes
    }

    pub(crate) fn number(&mut self) -> usize {
        let bytes = self.bytes(8).try_into().expect("eight bytes");
        usize::try_from(u64::from_le_bytes(bytes)).expect("a number of the address space")
    }

    pub(crate) fn flag(&mut self) -> bool {
        match self.number() {
            0 => false,
            1 => true,
            other => unknown("flag", other),
        }
    }

    pub(crate) fn text(&mut self) -> String {
        let count = self.number();
        let bytes = self.bytes(count).to_vec();
        String::from_utf8(bytes).expect("a text of feature_graph_c is UTF-8")
    }

    pub(crate) fn list<T>(&mut self, mut entry: impl FnMut(&mut Self) -> T) -> Vec<T> {
        let count = self.number();
        (0..count).map(|_| entry(self)).collect()
    }

    pub(crate) fn optional<T>(&mut self, content: impl FnOnce(&mut Self) -> T) -> Option<T> {
        self.flag().then(|| content(self))
    }

    pub(crate) fn numbers(&mut self) -> Vec<usize> {
        self.list(Self::number)
    }
}

/// Ends the program because of a number that the form doesn't have.
pub(crate) fn unknown(part: &str, number: usize) -> ! {
    panic!("an answer of feature_graph_c has the unknown {part} {number}")
}

/// Returns the fault of a row with this number.
fn row_fault(number: usize) -> RowFault {
    match number {
        0 => RowFault::NoPackage,
        1 => RowFault::DuplicatePackage,
        2 => RowFault::DuplicateFeature,
        3 => RowFault::UnknownTarget,
        4 => RowFault::OtherName,
        other => unknown("fault", other),
    }
}

/// Makes a call with a buffer of `size` bytes, and with a larger one if the answer is longer. Returns what `read` makes
/// of the answer's content, or the error that the answer names.
pub(crate) fn answer<T>(
    size: usize,
    call: impl Fn(&mut [u8]) -> usize,
    read: impl FnOnce(&mut Reader<'_>) -> T,
) -> Result<T, RowsError> {
    let mut out = vec![0; size];
    let mut length = call(&mut out);
    while length > out.len() {
        out = vec![0; length];
        length = call(&mut out);
    }
    let mut reader = Reader { left: &out[..length] };
    match reader.number() {
        0 => {
            let content = read(&mut reader);
            assert!(reader.left.is_empty(), "an answer of feature_graph_c has a part more");
            Ok(content)
        }
        1 => Err(RowsError::Memory),
        2 => panic!("feature_graph_c refuses the form of a request"),
        3 => Err(RowsError::NotText),
        4 => Err(RowsError::Malformed { line: reader.number() }),
        5 => Err(RowsError::Row { line: reader.number(), fault: row_fault(reader.number()) }),
        other => unknown("status", other),
    }
}

/// Returns the number of bytes of an answer with at most `count` numbers after its status.
pub(crate) fn size_of_numbers(count: usize) -> usize {
    count.saturating_add(1).saturating_mul(8)
}

/// A request, part by part.
pub(crate) struct Request {
    bytes: Vec<u8>,
}

impl Request {
    /// Returns a request that begins with a direction.
    pub(crate) fn new(direction: DependencyDirection) -> Self {
        let request = Request { bytes: Vec::new() };
        request.number(match direction {
            DependencyDirection::Forward => 0,
            DependencyDirection::Reverse => 1,
        })
    }

    pub(crate) fn number(mut self, number: usize) -> Self {
        self.bytes.extend_from_slice(&(number as u64).to_le_bytes());
        self
    }

    /// Adds a list whose entries have one number each.
    pub(crate) fn numbers(self, numbers: impl ExactSizeIterator<Item = usize>) -> Self {
        let request = self.number(numbers.len());
        numbers.fold(request, Self::number)
    }

    /// Adds a list whose entries have `N` numbers each.
    pub(crate) fn rows<const N: usize>(self, rows: impl ExactSizeIterator<Item = [usize; N]>) -> Self {
        let request = self.number(rows.len());
        rows.flatten().fold(request, Self::number)
    }

    pub(crate) fn bytes(&self) -> &[u8] {
        &self.bytes
    }
}

#[cfg(test)]
mod tests {
    use super::*;
    use std::cell::Cell;

    /// Returns a call with this answer.
    fn call(numbers: &[u64]) -> impl Fn(&mut [u8]) -> usize {
        let bytes: Vec<u8> = numbers.iter().flat_map(|it| it.to_le_bytes()).collect();
        move |out| {
            if let Some(room) = out.get_mut(..bytes.len()) {
                room.copy_from_slice(&bytes);
            }
            bytes.len()
        }
    }

    #[test]
    fn a_longer_answer_is_asked_for_again() {
        let calls = Cell::new(0);
        let counted = |out: &mut [u8]| {
            calls.set(calls.get() + 1);
            call(&[0, 3, 7, 8, 9])(out)
        };
        assert_eq!(answer(0, counted, |it| it.numbers()), Ok(vec![7, 8, 9]));
        assert_eq!(answer(40, counted, |it| it.numbers()), Ok(vec![7, 8, 9]));
        assert_eq!(calls.get(), 3);
    }

    #[test]
    fn each_status_is_its_error() {
        let error = |numbers: &[u64]| answer(64, call(numbers), |it| it.number()).unwrap_err();
        assert_eq!(error(&[1]), RowsError::Memory);
        assert_eq!(error(&[3]), RowsError::NotText);
        assert_eq!(error(&[4, 12]), RowsError::Malformed { line: 12 });
        assert_eq!(error(&[5, 12, 4]), RowsError::Row { line: 12, fault: RowFault::OtherName });
    }

    #[test]
    fn another_form_is_a_panic() {
        for numbers in [&[][..], &[0], &[0, 1, 2], &[2], &[5, 1, 9], &[6]] {
            let read = || answer(64, call(numbers), |it| it.number());
            assert!(std::panic::catch_unwind(read).is_err(), "{numbers:?}");
        }
    }

    #[test]
    fn a_request_has_its_parts_in_order() {
        let request = Request::new(DependencyDirection::Reverse).numbers([5].into_iter()).rows([[1, 2]].into_iter());
        let numbers: Vec<u64> =
            request.bytes().chunks(8).map(|it| u64::from_le_bytes(it.try_into().expect("eight bytes"))).collect();
        assert_eq!(numbers, [1, 1, 5, 1, 1, 2]);
    }
}
