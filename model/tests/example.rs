//! The example session is answered as its answers file says.

use model::session::{lines, Session};

#[test]
fn the_example_session() {
    let session_text = include_bytes!("../../examples/session.txt");
    let answers = include_str!("../../examples/session.answers");
    let mut session = Session::new(true);
    let given: String =
        lines(session_text).into_iter().map(|line| session.answer(line).line()).collect();
    assert_eq!(given, answers);
}
