//! The rotations of displaced force constants, of third and fourth order.
use crate::call::{floats, index, Call, Parts, ATOMS, LIST};
use crate::{c_names, fc3, fc4};

#[derive(Clone, Debug)]
pub struct Deltas {
    /// The order of the result.
    pub order: usize,
    pub set: Vec<f64>,
    pub deltas: Vec<f64>,
    pub inv_u: Vec<f64>,
    pub site_sym_cart: Vec<f64>,
    pub rot_map_syms: Vec<i64>,
    pub rot_delta: Vec<f64>,
    pub num_atom: usize,
    pub num_site_sym: usize,
    pub num_disp: usize,
}

impl Call for Deltas {
    fn parts(&mut self) -> Parts<'_> {
        let (n, syms, disps) = (self.num_atom, self.num_site_sym, self.num_disp);
        let below = 3usize.pow(self.order as u32 - 1);
        let (mut set, mut deltas) = (vec![3, below], vec![disps, below]);
        set.extend(vec![n; self.order - 1]);
        deltas.extend(vec![n; self.order - 1]);
        let counts = vec![(&mut self.num_atom, ATOMS[self.order]), (&mut self.num_site_sym, LIST), (&mut self.num_disp, LIST)];
        let slices = vec![
            floats(&mut self.set, &set),
            floats(&mut self.deltas, &deltas),
            floats(&mut self.inv_u, &[3, disps, syms]),
            floats(&mut self.site_sym_cart, &[syms, 9]),
            index(&mut self.rot_map_syms, &[syms, n], n),
            floats(&mut self.rot_delta, &[disps, syms, below]).as_work(),
        ];
        Parts::new(counts, slices)
    }

    fn original(&mut self) -> u8 {
        let rotate = if self.order == 3 { fc3::rotate_delta_fc2s } else { fc4::rotate_delta_fc3s };
        rotate(
            &mut self.set, &self.deltas, &self.inv_u, &self.site_sym_cart, &self.rot_map_syms, self.num_atom, self.num_site_sym,
            self.num_disp,
        );
        0
    }

    fn port(&mut self) -> u8 {
        let rotate = if self.order == 3 { c_names::gf_rotate_delta_fc2s } else { c_names::gf_rotate_delta_fc3s };
        // SAFETY: slices by their pointers and lengths, no precondition.
        unsafe {
            rotate(
                self.set.as_mut_ptr(), self.set.len(), self.deltas.as_ptr(), self.deltas.len(), self.inv_u.as_ptr(),
                self.inv_u.len(), self.site_sym_cart.as_ptr(), self.site_sym_cart.len(), self.rot_map_syms.as_ptr(),
                self.rot_map_syms.len(), self.rot_delta.as_mut_ptr(), self.rot_delta.len(), self.num_atom, self.num_site_sym,
                self.num_disp,
            )
        }
    }
}
