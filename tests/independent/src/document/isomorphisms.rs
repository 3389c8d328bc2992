//! The isomorphisms of request S-13 as tables of values: every one-to-one and onto map from K1 to K2 that preserves sums, products and one, found by
//! giving the residues their values one by one. Nothing is assumed of how the values come about.

use super::model::{Model, Residue};
use super::polynomial::all_lists;

/// The residues of a model, by their places in `all_lists`, and the places of their sums and products.
struct Places {
    residues: Vec<Residue>,
    one: usize,
    sums: Vec<Vec<usize>>,
    products: Vec<Vec<usize>>,
}

impl Places {
    fn new(p: u32, t: &[u32]) -> Self {
        let model = Model::new(p, t);
        let residues: Vec<Residue> = all_lists(p, t.len() as u32).collect();
        let place = |u: Residue| residues.iter().position(|v| *v == u).unwrap();
        let one = place(model.constant(1));
        let sums = residues.iter().map(|u| residues.iter().map(|v| place(model.sum(u, v))).collect()).collect();
        let products = residues.iter().map(|u| residues.iter().map(|v| place(model.product(u, v))).collect()).collect();
        Places { residues, one, sums, products }
    }
}

/// Whether sums, products and one are preserved as far as the map is known: `values` are its values on the first residues.
fn preserves(from: &Places, to: &Places, values: &[usize]) -> bool {
    let agrees = |u: usize, image: usize| values.get(u).map_or(true, |&value| value == image);
    let both = |u: usize, v: usize| {
        let (a, b) = (values[u], values[v]);
        agrees(from.sums[u][v], to.sums[a][b]) && agrees(from.products[u][v], to.products[a][b])
    };
    let known = 0..values.len();
    agrees(from.one, to.one) && known.clone().all(|u| known.clone().all(|v| both(u, v)))
}

/// The values, and one more that is not among them.
fn longer(values: &[usize], size: usize) -> impl Iterator<Item = Vec<usize>> + '_ {
    (0..size).filter(|value| !values.contains(value)).map(|value| values.iter().copied().chain([value]).collect())
}

/// Each map as the images of all residues, one after the other in the order of `all_lists`. No value is taken twice, so that all are taken at last.
pub fn by_search(p: u32, t1: &[u32], t2: &[u32]) -> Vec<Vec<u32>> {
    let (from, to) = (Places::new(p, t1), Places::new(p, t2));
    let size = to.residues.len();
    let mut maps = vec![vec![]];
    for _ in 0..size {
        maps = maps.iter().flat_map(|values| longer(values, size)).filter(|values| preserves(&from, &to, values)).collect();
    }
    maps.iter().map(|values| values.iter().flat_map(|&value| to.residues[value].clone()).collect()).collect()
}
