//! The drawers that are held against each other.

/// What a drawer answers: the routines, or the number of what is wrong.
pub type Answer = Result<usize, u8>;

/// A drawer into lent buffers: opcodes, arguments, sheet and list.
pub type Drawer = fn(&[u8], &[u8], &mut [u8], &mut [u8]) -> Answer;

/// The drawers by name.
pub const DRAWERS: [(&str, Drawer); 2] =
    [("the library", draw), ("the reference", reference::draw)];

/// The library's drawer.
fn draw(opcodes: &[u8], arguments: &[u8], sheet: &mut [u8], list: &mut [u8]) -> Answer {
    let answer = cesca::draw_into(opcodes, arguments, sheet, list);
    answer.map_err(|refusal| refusal.number())
}
