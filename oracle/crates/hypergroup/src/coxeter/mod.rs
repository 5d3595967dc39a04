//! Stand-in for coxeter_group.rs without its geometry: fields, indexing and
//! validation are copied from it.
pub(crate) mod todd_coxeter; // original
pub(crate) mod todd_coxeter_traced; // made from the original by setup.sh

use std::ops::Index;

use crate::{GroupError, GroupResult};

#[derive(Debug, Clone)]
pub struct CoxeterMatrix {
    generator_count: u8,
    matrix: Box<[u16]>,
}

impl Index<[u8; 2]> for CoxeterMatrix {
    type Output = u16;

    #[track_caller]
    fn index(&self, [i, j]: [u8; 2]) -> &Self::Output {
        assert!(i < self.generator_count, "index out of range");
        assert!(j < self.generator_count, "index out of range");
        &self.matrix[i as usize * self.generator_count as usize + j as usize]
    }
}

impl CoxeterMatrix {
    pub fn from_matrix_fn(
        generator_count: u8,
        mut f: impl FnMut(u8, u8) -> u16,
    ) -> GroupResult<Self> {
        let matrix: Box<[u16]> = itertools::iproduct!(0..generator_count, 0..generator_count)
            .map(|(i, j)| match i.cmp(&j) {
                std::cmp::Ordering::Less => f(i, j),
                std::cmp::Ordering::Equal => 1,
                std::cmp::Ordering::Greater => f(j, i),
            })
            .collect();
        let ret = Self { generator_count, matrix };

        // Validate indices.
        for i in 0..generator_count {
            for j in 0..=i {
                let is_positive_integer = ret[[i, j]] >= 1;
                let is_on_diagonal = i == j;
                let is_one = ret[[i, j]] == 1;
                let is_symmetric = ret[[i, j]] == ret[[j, i]];
                if !is_positive_integer || is_on_diagonal != is_one || !is_symmetric {
                    return Err(GroupError::BadCD);
                }
            }
        }

        Ok(ret)
    }

    /// The oracle's own: from a list in the order (0,1),(0,2),(1,2),(0,3)..
    pub fn from_pair_orders(n: u8, orders: &[u16]) -> GroupResult<Self> {
        Self::from_matrix_fn(n, |i, j| orders[j as usize * (j as usize - 1) / 2 + i as usize])
    }

    pub fn generator_count(&self) -> u8 {
        self.generator_count
    }
}
