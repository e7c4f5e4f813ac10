//! The calls on compact sets, of every order.
use crate::call::{bytes, floats, index, Call, Parts, ATOMS, LEVEL};
use crate::compare_true::{exchanged, swapped};
use crate::rng::Rng;
use crate::shift_records::damage;
use crate::shifts::Tables;
use crate::{c_names, fc2, fc3, fc4};

#[derive(Clone, Copy, Debug, PartialEq)]
pub enum Name {
    Symmetrize2,
    Exchange2,
    Symmetrize3,
    Transpose3,
    Symmetrize4,
    Transpose4,
    True2,
    True3,
    True4,
    Swap4,
}

impl Name {
    pub fn order(self) -> usize {
        match self {
            Name::Symmetrize2 | Name::Exchange2 | Name::True2 => 2,
            Name::Symmetrize3 | Name::Transpose3 | Name::True3 => 3,
            Name::Symmetrize4 | Name::Transpose4 | Name::True4 | Name::Swap4 => 4,
        }
    }

    /// How often n_satom is a factor of the length of the work slice.
    fn work(self) -> usize {
        match self {
            Name::Symmetrize3 => 2,
            Name::Symmetrize4 => 3,
            _ => 1,
        }
    }
}

#[derive(Clone, Debug)]
pub struct Compact {
    pub name: Name,
    pub set: Vec<f64>,
    pub done: Vec<u8>,
    pub tables: Tables,
    /// Only perm_trans_symmetrize_compact_fc has it.
    pub level: usize,
    /// 1 for true where the type is a transpose.
    pub t_type: i64,
    /// Only swap_pairs_compact_fc4 has them.
    pub legs: [usize; 2],
}

impl Compact {
    /// The call with these tables; the set is empty and the work slice too.
    pub fn new(name: Name, tables: Tables) -> Compact {
        Compact { name, set: vec![], done: vec![], tables, level: 0, t_type: 0, legs: [0; 2] }
    }

    /// The length of the set by document 01.
    pub fn stated(&self) -> usize {
        self.tables.n_patom * self.tables.n_satom.pow(self.name.order() as u32 - 1) * 3usize.pow(self.name.order() as u32)
    }
}

/// The library's call with the slices and counts that all compact calls have.
macro_rules! by_c_name {
    ($name:ident, $call:ident $(, $last:expr)*) => {{
        let t = &$call.tables;
        // SAFETY: slices by their pointers and lengths, no precondition.
        unsafe {
            c_names::$name(
                $call.set.as_mut_ptr(), $call.set.len(), t.p2s.as_ptr(), t.p2s.len(), t.s2pp.as_ptr(), t.s2pp.len(),
                t.nsym_list.as_ptr(), t.nsym_list.len(), t.perms.as_ptr(), t.perms.len(), $call.done.as_mut_ptr(),
                $call.done.len(), t.n_satom, t.n_patom, t.num_trans $(, $last)*
            )
        }
    }};
}

impl Call for Compact {
    fn parts(&mut self) -> Parts<'_> {
        let (name, t) = (self.name, &mut self.tables);
        let (s, p, n) = (t.n_satom, t.n_patom, t.num_trans);
        let order = name.order();
        let mut set = vec![p, 3usize.pow(order as u32)];
        set.extend(vec![s; order - 1]);
        let mut work = vec![p];
        work.extend(vec![s; name.work()]);
        let limit = ATOMS[order];
        let mut counts = vec![(&mut t.n_satom, limit), (&mut t.n_patom, limit), (&mut t.num_trans, limit)];
        if name == Name::Symmetrize2 {
            counts.push((&mut self.level, LEVEL));
        }
        let slices = vec![
            floats(&mut self.set, &set),
            index(&mut t.p2s, &[p], s),
            index(&mut t.s2pp, &[s], p),
            index(&mut t.nsym_list, &[s], n),
            index(&mut t.perms, &[n, s], s),
            bytes(&mut self.done, &work).as_work(),
        ];
        Parts::new(counts, slices)
    }

    /// Refusal 3 for legs: there are four, 0 to 3.
    fn outside(&self) -> bool {
        self.legs.iter().any(|leg| *leg > 3)
    }

    fn rest(&self) -> u8 {
        if self.tables.obey() {
            0
        } else {
            6
        }
    }

    fn original(&mut self) -> u8 {
        let (f, t) = (&mut self.set[..], &self.tables);
        let (p2s, s2pp, nsym, perms, s, p) = (&t.p2s[..], &t.s2pp[..], &t.nsym_list[..], &t.perms[..], t.n_satom, t.n_patom);
        match self.name {
            Name::Symmetrize2 => fc2::perm_trans_symmetrize_compact_fc(f, p2s, s2pp, nsym, perms, s, p, self.level),
            Name::Exchange2 => fc2::set_index_permutation_symmetry_compact_fc(f, p2s, s2pp, nsym, perms, s, p, self.t_type == 1),
            Name::Symmetrize3 => fc3::set_permutation_symmetry_compact_fc3(f, p2s, s2pp, nsym, perms, s, p),
            Name::Transpose3 => fc3::transpose_compact_fc3(f, p2s, s2pp, nsym, perms, s, p, self.t_type),
            Name::Symmetrize4 => fc4::set_permutation_symmetry_compact_fc4(f, p2s, s2pp, nsym, perms, s, p),
            Name::Transpose4 => fc4::transpose_compact_fc4(f, p2s, s2pp, nsym, perms, s, p, self.t_type),
            // not in the Rust: by their definition
            Name::Swap4 => self.set = swapped(4, (self.legs[0], self.legs[1]), &self.tables, &self.set),
            Name::True2 | Name::True3 | Name::True4 => self.set = exchanged(self.name.order(), self.t_type, &self.tables, &self.set),
        }
        0
    }

    fn port(&mut self) -> u8 {
        match self.name {
            Name::Symmetrize2 => by_c_name!(gf_perm_trans_symmetrize_compact_fc, self, self.level),
            Name::Exchange2 => by_c_name!(gf_set_index_permutation_symmetry_compact_fc, self, self.t_type == 1),
            Name::Symmetrize3 => by_c_name!(gf_set_permutation_symmetry_compact_fc3, self),
            Name::Transpose3 => by_c_name!(gf_transpose_compact_fc3, self, self.t_type),
            Name::Symmetrize4 => by_c_name!(gf_set_permutation_symmetry_compact_fc4, self),
            Name::Transpose4 => by_c_name!(gf_transpose_compact_fc4, self, self.t_type),
            Name::True2 => by_c_name!(gf_true_transpose_compact_fc2, self),
            Name::True3 => by_c_name!(gf_true_transpose_compact_fc3, self, self.t_type),
            Name::True4 => by_c_name!(gf_true_transpose_compact_fc4, self, self.t_type),
            Name::Swap4 => by_c_name!(gf_swap_pairs_compact_fc4, self, self.legs[0], self.legs[1]),
        }
    }

    /// Transposes move.
    fn made(&self, slice: usize, _: usize) -> bool {
        let moves = matches!(self.name, Name::Transpose3 | Name::Transpose4 | Name::True2 | Name::True3 | Name::True4 | Name::Swap4) || self.name == Name::Exchange2 && self.t_type == 1;
        slice == 0 && !moves
    }

    fn spoil(&mut self, r: &mut Rng) {
        if self.name == Name::Swap4 && r.below(2) == 0 {
            self.legs[r.below(2)] = [4, 5, 7, 1 << 32, usize::MAX][r.below(5)];
            return;
        }
        if self.tables.sized() {
            damage(r, &mut self.tables);
        }
    }
}
