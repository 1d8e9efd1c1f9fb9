use super::*;

#[test]
fn the_empty_row_has_no_nodes_and_no_root() {
    let tree: Tree = "".parse().unwrap();
    assert_eq!((tree.root(), tree.nodes(), tree.is_one_tree(), tree.is_as_built()), (None, [].as_slice(), false, true));
    assert_eq!((tree.fwd_search(0, 1), tree.level_leftmost(0)), (Ok(None), Ok(None)));
}

#[test]
fn refusals_come_in_their_order() {
    assert_eq!(Tree::build([].as_slice(), 1 << 33, 12), Err(Refusal::BlockSize));
    assert_eq!(Tree::build([].as_slice(), (1 << 32) + 1, 8), Err(Refusal::TooManyBits));
    assert_eq!(Tree::build([].as_slice(), usize::MAX, 8), Err(Refusal::TooManyBits));
    assert_eq!(Tree::build([].as_slice(), 1, 8), Err(Refusal::TooFewWords));
    assert_eq!(Tree::from_parts([0].as_slice(), 40, [0; 35].as_slice(), 8).unwrap_err(), Refusal::TooFewNodes);
    assert_eq!(Tree::from_parts([0].as_slice(), 40, [0; 36].as_slice(), 8).map(|tree| tree.block()), Ok(8));
}

#[test]
fn blocks_reach_up_to_65_536_bits() {
    assert_eq!(Tree::build([0b01].as_slice(), 2, 65_536).map(|tree| tree.close(0)), Ok(Ok(Some(1))));
    assert_eq!(Tree::build([0b01].as_slice(), 2, 65_544), Err(Refusal::BlockSize));
}

#[test]
fn a_build_leaves_what_stands_past_the_nodes() {
    let mut nodes = [9; 8];
    Tree::build_in([0b0001_1011].as_slice(), 8, &mut nodes, 8).unwrap();
    assert_eq!(nodes, [0, 0, 3, 0, 0, 3, 9, 9]);
}
