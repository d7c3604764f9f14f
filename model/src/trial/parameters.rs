//! Values of a command's parameters, and lists of algorithms, as the tables of both ends try them.

use super::tree::{Tree, NEGATIVE};

pub fn minus(argument: u64) -> Tree {
    Tree::Number(NEGATIVE, argument)
}

fn algorithm(alg: Tree, kind: Tree) -> Tree {
    Tree::Map(vec![(Tree::text("alg"), alg), (Tree::text("type"), kind)])
}

/// The only entry of key 4 that the key supports.
pub fn supported() -> Tree {
    algorithm(minus(6), Tree::text("public-key"))
}

/// A value of each kind, and hashes of about the right length.
pub fn values() -> Vec<Tree> {
    vec![
        Tree::unsigned(0),
        minus(0),
        Tree::bytes(vec![]),
        Tree::bytes(vec![0xAB; 31]),
        Tree::bytes(vec![0xAB; 32]),
        Tree::bytes(vec![0xAB; 33]),
        Tree::text("text"),
        Tree::text(&"t".repeat(32)),
        Tree::Array(vec![]),
        Tree::Array(vec![supported()]),
        Tree::Map(vec![]),
        Tree::Raw(vec![0xF5]),
    ]
}

/// Every entry of key 4 that tells something, alone, and before and after each of its neighbours.
pub fn algorithm_lists() -> Vec<Vec<Tree>> {
    let algs = [
        None,
        Some(minus(6)),
        Some(minus(5)),
        Some(minus(7)),
        Some(Tree::unsigned(6)),
        Some(Tree::unsigned(249)),
        Some(minus(248)),
        Some(minus(262)),
        Some(minus(0x1_0006)),
        Some(Tree::unsigned(0xFFFF_FFF9)),
        Some(minus(0x1_0000_0006)),
        Some(Tree::unsigned(u64::MAX - 6)),
        Some(Tree::text("-7")),
        Some(Tree::bytes(vec![0x26])),
        Some(Tree::Array(vec![minus(6)])),
        Some(Tree::Raw(vec![0xF6])),
    ];
    let kinds = [
        None,
        Some(Tree::text("public-key")),
        Some(Tree::text("public-ke")),
        Some(Tree::text("public-keys")),
        Some(Tree::text("")),
        Some(Tree::bytes(b"public-key".to_vec())),
        Some(Tree::unsigned(0)),
    ];
    let neighbours = [
        supported(),
        algorithm(minus(256), Tree::text("public-key")),
        algorithm(Tree::text(""), Tree::text("public-key")),
        Tree::unsigned(0),
        Tree::Map(vec![]),
    ];
    let mut lists = Vec::new();
    for alg in &algs {
        for kind in &kinds {
            let entries = [("alg", alg), ("type", kind)]
                .into_iter()
                .filter_map(|(key, value)| Some((Tree::text(key), value.clone()?)));
            let entry = Tree::Map(entries.collect());
            lists.push(vec![entry.clone()]);
            for neighbour in &neighbours {
                lists.push(vec![neighbour.clone(), entry.clone()]);
                lists.push(vec![entry.clone(), neighbour.clone()]);
            }
        }
    }
    lists
}
