//! The lists of handles in outcomes.

use crate::handles::Handle;
use crate::traces::HandleList;

#[test]
fn lists_of_handles() {
    let handle = Handle::new(2, 1).expect("a handle");
    let list = HandleList::new(vec![handle, handle]);
    let none = HandleList::new(Vec::new());
    assert_eq!(
        (list.len(), list.is_empty(), none.is_empty()),
        (2, false, true)
    );
    assert!(list != none);
    assert_eq!(list.into_vec().as_slice(), [handle, handle]);
}
