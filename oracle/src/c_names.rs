//! The port's C names, as include/gullyfork.h has them.

extern "C" {
    pub fn gf_nint(x: f64) -> i64;
    pub fn gf_round(x: f64) -> f64;
    pub fn gf_sqrt(x: f64) -> f64;
    pub fn gf_check_shift_tables(
        p2s: *const i64, p2s_len: usize, s2pp: *const i64, s2pp_len: usize, nsym_list: *const i64,
        nsym_list_len: usize, perms: *const i64, perms_len: usize, n_satom: usize, n_patom: usize, num_trans: usize,
    ) -> u8;
    pub fn gf_explain_shift_tables(
        p2s: *const i64, p2s_len: usize, s2pp: *const i64, s2pp_len: usize, nsym_list: *const i64,
        nsym_list_len: usize, perms: *const i64, perms_len: usize, place: *mut usize, place_len: usize, n_satom: usize, n_patom: usize,
        num_trans: usize,
    ) -> u8;
    pub fn gf_compute_permutation(
        rot_atom: *mut i64, rot_atom_len: usize, lattice: *const f64, lattice_len: usize, symprec: f64,
        periodic: *const u8, periodic_len: usize, pos: *const f64, pos_len: usize, rot_pos: *const f64, rot_pos_len: usize, pair: *mut usize, pair_len: usize,
        num_pos: usize,
    ) -> u8;
    pub fn gf_find_permutation(
        rot_atom: *mut i64, rot_atom_len: usize, marks: *mut u8, marks_len: usize, lattice: *const f64, lattice_len: usize,
        symprec: f64, periodic: *const u8, periodic_len: usize, pos: *const f64, pos_len: usize, rot_pos: *const f64, rot_pos_len: usize,
        num_pos: usize,
    ) -> u8;
    pub fn gf_perm_trans_symmetrize_fc(fc: *mut f64, fc_len: usize, n_satom: usize, level: usize) -> u8;
    pub fn gf_perm_trans_symmetrize_compact_fc(
        fc: *mut f64, fc_len: usize, p2s: *const i64, p2s_len: usize, s2pp: *const i64, s2pp_len: usize,
        nsym_list: *const i64, nsym_list_len: usize, perms: *const i64, perms_len: usize, done: *mut u8,
        done_len: usize, n_satom: usize, n_patom: usize, num_trans: usize, level: usize,
    ) -> u8;
    pub fn gf_set_index_permutation_symmetry_compact_fc(
        fc: *mut f64, fc_len: usize, p2s: *const i64, p2s_len: usize, s2pp: *const i64, s2pp_len: usize,
        nsym_list: *const i64, nsym_list_len: usize, perms: *const i64, perms_len: usize, done: *mut u8,
        done_len: usize, n_satom: usize, n_patom: usize, num_trans: usize, transpose: bool,
    ) -> u8;
    pub fn gf_drift_report(
        fc: *const f64, fc_len: usize, value: *mut f64, value_len: usize, place: *mut usize, place_len: usize,
        n_satom: usize,
    ) -> u8;
    pub fn gf_drift_report_compact_fc2(
        fc: *const f64, fc_len: usize, p2s: *const i64, p2s_len: usize, s2pp: *const i64, s2pp_len: usize, nsym_list: *const i64,
        nsym_list_len: usize, perms: *const i64, perms_len: usize, value: *mut f64, value_len: usize, place: *mut usize, place_len: usize,
        n_satom: usize, n_patom: usize, num_trans: usize,
    ) -> u8;
    pub fn gf_drift_report_fc3(
        fc: *const f64, fc_len: usize, value: *mut f64, value_len: usize, place: *mut usize, place_len: usize, num_atom: usize,
    ) -> u8;
    pub fn gf_distribute_fc2(
        fc2: *mut f64, fc2_len: usize, atom_list: *const i64, atom_list_len: usize,
        fc_indices_of_atom_list: *const i64, fc_indices_of_atom_list_len: usize, r_carts: *const f64,
        r_carts_len: usize, permutations: *const i64, permutations_len: usize, map_atoms: *const i64,
        map_atoms_len: usize, map_syms: *const i64, map_syms_len: usize, atom_list_reverse: *mut i64,
        atom_list_reverse_len: usize, num_pos: usize, num_first: usize, num_rot: usize,
    ) -> u8;
    pub fn gf_set_permutation_symmetry_fc3(fc3: *mut f64, fc3_len: usize, num_atom: usize) -> u8;
    pub fn gf_set_permutation_symmetry_compact_fc3(
        fc3: *mut f64, fc3_len: usize, p2s: *const i64, p2s_len: usize, s2pp: *const i64, s2pp_len: usize,
        nsym_list: *const i64, nsym_list_len: usize, perms: *const i64, perms_len: usize, done: *mut u8,
        done_len: usize, n_satom: usize, n_patom: usize, num_trans: usize,
    ) -> u8;
    pub fn gf_transpose_compact_fc3(
        fc3: *mut f64, fc3_len: usize, p2s: *const i64, p2s_len: usize, s2pp: *const i64, s2pp_len: usize,
        nsym_list: *const i64, nsym_list_len: usize, perms: *const i64, perms_len: usize, done: *mut u8,
        done_len: usize, n_satom: usize, n_patom: usize, num_trans: usize, t_type: i64,
    ) -> u8;
    pub fn gf_distribute_fc3(
        fc3: *mut f64, fc3_len: usize, target: usize, source: usize, atom_mapping: *const i64,
        atom_mapping_len: usize, num_atom: usize, rot_cart: *const f64, rot_cart_len: usize, num_first: usize,
    ) -> u8;
    pub fn gf_rotate_delta_fc2s(
        fc3: *mut f64, fc3_len: usize, delta_fc2s: *const f64, delta_fc2s_len: usize, inv_u: *const f64,
        inv_u_len: usize, site_sym_cart: *const f64, site_sym_cart_len: usize, rot_map_syms: *const i64,
        rot_map_syms_len: usize, rot_delta: *mut f64, rot_delta_len: usize, num_atom: usize, num_site_sym: usize,
        num_disp: usize,
    ) -> u8;
    pub fn gf_set_permutation_symmetry_fc4(
        fc4: *mut f64, fc4_len: usize, done: *mut u8, done_len: usize, num_atom: usize,
    ) -> u8;
    pub fn gf_set_permutation_symmetry_compact_fc4(
        fc4: *mut f64, fc4_len: usize, p2s: *const i64, p2s_len: usize, s2pp: *const i64, s2pp_len: usize,
        nsym_list: *const i64, nsym_list_len: usize, perms: *const i64, perms_len: usize, done: *mut u8,
        done_len: usize, n_satom: usize, n_patom: usize, num_trans: usize,
    ) -> u8;
    pub fn gf_transpose_compact_fc4(
        fc4: *mut f64, fc4_len: usize, p2s: *const i64, p2s_len: usize, s2pp: *const i64, s2pp_len: usize,
        nsym_list: *const i64, nsym_list_len: usize, perms: *const i64, perms_len: usize, done: *mut u8,
        done_len: usize, n_satom: usize, n_patom: usize, num_trans: usize, t_type: i64,
    ) -> u8;
    pub fn gf_distribute_fc4(
        fc4: *mut f64, fc4_len: usize, target: usize, source: usize, atom_mapping: *const i64,
        atom_mapping_len: usize, num_atom: usize, rot_cart: *const f64, rot_cart_len: usize, num_first: usize,
    ) -> u8;
    pub fn gf_rotate_delta_fc3s(
        fc4: *mut f64, fc4_len: usize, delta_fc3s: *const f64, delta_fc3s_len: usize, inv_u: *const f64,
        inv_u_len: usize, site_sym_cart: *const f64, site_sym_cart_len: usize, rot_map_syms: *const i64,
        rot_map_syms_len: usize, rot_delta: *mut f64, rot_delta_len: usize, num_atom: usize, num_site_sym: usize,
        num_disp: usize,
    ) -> u8;
    pub fn gf_true_transpose_compact_fc2(
        fc: *mut f64, fc_len: usize, p2s: *const i64, p2s_len: usize, s2pp: *const i64, s2pp_len: usize,
        nsym_list: *const i64, nsym_list_len: usize, perms: *const i64, perms_len: usize, done: *mut u8,
        done_len: usize, n_satom: usize, n_patom: usize, num_trans: usize,
    ) -> u8;
    pub fn gf_true_transpose_compact_fc3(
        fc3: *mut f64, fc3_len: usize, p2s: *const i64, p2s_len: usize, s2pp: *const i64, s2pp_len: usize,
        nsym_list: *const i64, nsym_list_len: usize, perms: *const i64, perms_len: usize, done: *mut u8,
        done_len: usize, n_satom: usize, n_patom: usize, num_trans: usize, t_type: i64,
    ) -> u8;
    pub fn gf_swap_pairs_compact_fc4(
        fc4: *mut f64, fc4_len: usize, p2s: *const i64, p2s_len: usize, s2pp: *const i64, s2pp_len: usize,
        nsym_list: *const i64, nsym_list_len: usize, perms: *const i64, perms_len: usize, done: *mut u8,
        done_len: usize, n_satom: usize, n_patom: usize, num_trans: usize, leg_a: usize, leg_b: usize,
    ) -> u8;
    pub fn gf_true_transpose_compact_fc4(
        fc4: *mut f64, fc4_len: usize, p2s: *const i64, p2s_len: usize, s2pp: *const i64, s2pp_len: usize,
        nsym_list: *const i64, nsym_list_len: usize, perms: *const i64, perms_len: usize, done: *mut u8,
        done_len: usize, n_satom: usize, n_patom: usize, num_trans: usize, t_type: i64,
    ) -> u8;
    pub fn gf_compact_to_full_fc2(
        full: *mut f64, full_len: usize, fc2: *const f64, fc2_len: usize, p2s: *const i64, p2s_len: usize, s2pp: *const i64,
        s2pp_len: usize, nsym_list: *const i64, nsym_list_len: usize, perms: *const i64, perms_len: usize, n_satom: usize,
        n_patom: usize, num_trans: usize,
    ) -> u8;
    pub fn gf_compact_to_full_fc3(
        full: *mut f64, full_len: usize, fc3: *const f64, fc3_len: usize, p2s: *const i64, p2s_len: usize, s2pp: *const i64,
        s2pp_len: usize, nsym_list: *const i64, nsym_list_len: usize, perms: *const i64, perms_len: usize, n_satom: usize,
        n_patom: usize, num_trans: usize,
    ) -> u8;
    pub fn gf_compact_to_full_fc4(
        full: *mut f64, full_len: usize, fc4: *const f64, fc4_len: usize, p2s: *const i64, p2s_len: usize, s2pp: *const i64,
        s2pp_len: usize, nsym_list: *const i64, nsym_list_len: usize, perms: *const i64, perms_len: usize, n_satom: usize,
        n_patom: usize, num_trans: usize,
    ) -> u8;
    pub fn gf_row_sums_fc2(sums: *mut f64, sums_len: usize, fc: *const f64, fc_len: usize, n_satom: usize) -> u8;
    pub fn gf_replace_block_fc2(
        fc: *mut f64, fc_len: usize, sums: *mut f64, sums_len: usize, block: *const f64, block_len: usize, i: usize, j: usize,
        n_satom: usize,
    ) -> u8;
    pub fn gf_same_set(
        a: *const f64, a_len: usize, b: *const f64, b_len: usize, place: *mut usize, place_len: usize, numbers: *mut f64,
        numbers_len: usize,
    ) -> u8;
    pub fn gf_audit_compact_fc2(
        fc: *const f64, fc_len: usize, p2s: *const i64, p2s_len: usize, s2pp: *const i64, s2pp_len: usize,
        nsym_list: *const i64, nsym_list_len: usize, perms: *const i64, perms_len: usize, place: *mut usize,
        place_len: usize, numbers: *mut f64, numbers_len: usize, n_satom: usize, n_patom: usize, num_trans: usize,
    ) -> u8;
    pub fn gf_audit_fc2(
        fc: *const f64, fc_len: usize, place: *mut usize, place_len: usize, numbers: *mut f64, numbers_len: usize,
        num_atom: usize,
    ) -> u8;
    pub fn gf_audit_compact_fc3(
        fc: *const f64, fc_len: usize, p2s: *const i64, p2s_len: usize, s2pp: *const i64, s2pp_len: usize,
        nsym_list: *const i64, nsym_list_len: usize, perms: *const i64, perms_len: usize, place: *mut usize,
        place_len: usize, numbers: *mut f64, numbers_len: usize, n_satom: usize, n_patom: usize, num_trans: usize,
    ) -> u8;
    pub fn gf_audit_fc3(
        fc: *const f64, fc_len: usize, place: *mut usize, place_len: usize, numbers: *mut f64, numbers_len: usize,
        num_atom: usize,
    ) -> u8;
    pub fn gf_audit_compact_fc4(
        fc: *const f64, fc_len: usize, p2s: *const i64, p2s_len: usize, s2pp: *const i64, s2pp_len: usize,
        nsym_list: *const i64, nsym_list_len: usize, perms: *const i64, perms_len: usize, place: *mut usize,
        place_len: usize, numbers: *mut f64, numbers_len: usize, n_satom: usize, n_patom: usize, num_trans: usize,
    ) -> u8;
    pub fn gf_audit_fc4(
        fc: *const f64, fc_len: usize, place: *mut usize, place_len: usize, numbers: *mut f64, numbers_len: usize,
        num_atom: usize,
    ) -> u8;
    pub fn gf_set_difference(
        a: *const f64, a_len: usize, b: *const f64, b_len: usize, value: *mut f64, value_len: usize, place: *mut usize,
        place_len: usize,
    ) -> u8;
    pub fn gf_difference_report_compact_fc2(
        fc: *const f64, fc_len: usize, p2s: *const i64, p2s_len: usize, s2pp: *const i64, s2pp_len: usize, nsym_list: *const
        i64, nsym_list_len: usize, perms: *const i64, perms_len: usize, value: *mut f64, value_len: usize, place: *mut usize,
        place_len: usize, n_satom: usize, n_patom: usize, num_trans: usize,
    ) -> u8;
    pub fn gf_difference_report_fc2(
        fc: *const f64, fc_len: usize, value: *mut f64, value_len: usize, place: *mut usize, place_len: usize, num_atom:
        usize,
    ) -> u8;
    pub fn gf_crystal_report_compact_fc2(
        fc: *const f64, fc_len: usize, p2s: *const i64, p2s_len: usize, s2pp: *const i64, s2pp_len: usize, nsym_list: *const
        i64, nsym_list_len: usize, perms: *const i64, perms_len: usize, r_carts: *const f64, r_carts_len: usize, operations:
        *const i64, operations_len: usize, value: *mut f64, value_len: usize, place: *mut usize, place_len: usize, n_satom:
        usize, n_patom: usize, num_trans: usize, num_rot: usize,
    ) -> u8;
    pub fn gf_crystal_report_fc2(
        fc: *const f64, fc_len: usize, r_carts: *const f64, r_carts_len: usize, operations: *const i64, operations_len: usize,
        value: *mut f64, value_len: usize, place: *mut usize, place_len: usize, num_atom: usize, num_rot: usize,
    ) -> u8;
    pub fn gf_difference_report_compact_fc3(
        fc: *const f64, fc_len: usize, p2s: *const i64, p2s_len: usize, s2pp: *const i64, s2pp_len: usize, nsym_list: *const
        i64, nsym_list_len: usize, perms: *const i64, perms_len: usize, value: *mut f64, value_len: usize, place: *mut usize,
        place_len: usize, n_satom: usize, n_patom: usize, num_trans: usize,
    ) -> u8;
    pub fn gf_difference_report_fc3(
        fc: *const f64, fc_len: usize, value: *mut f64, value_len: usize, place: *mut usize, place_len: usize, num_atom:
        usize,
    ) -> u8;
    pub fn gf_crystal_report_compact_fc3(
        fc: *const f64, fc_len: usize, p2s: *const i64, p2s_len: usize, s2pp: *const i64, s2pp_len: usize, nsym_list: *const
        i64, nsym_list_len: usize, perms: *const i64, perms_len: usize, r_carts: *const f64, r_carts_len: usize, operations:
        *const i64, operations_len: usize, value: *mut f64, value_len: usize, place: *mut usize, place_len: usize, n_satom:
        usize, n_patom: usize, num_trans: usize, num_rot: usize,
    ) -> u8;
    pub fn gf_crystal_report_fc3(
        fc: *const f64, fc_len: usize, r_carts: *const f64, r_carts_len: usize, operations: *const i64, operations_len: usize,
        value: *mut f64, value_len: usize, place: *mut usize, place_len: usize, num_atom: usize, num_rot: usize,
    ) -> u8;
    pub fn gf_difference_report_compact_fc4(
        fc: *const f64, fc_len: usize, p2s: *const i64, p2s_len: usize, s2pp: *const i64, s2pp_len: usize, nsym_list: *const
        i64, nsym_list_len: usize, perms: *const i64, perms_len: usize, value: *mut f64, value_len: usize, place: *mut usize,
        place_len: usize, n_satom: usize, n_patom: usize, num_trans: usize,
    ) -> u8;
    pub fn gf_difference_report_fc4(
        fc: *const f64, fc_len: usize, value: *mut f64, value_len: usize, place: *mut usize, place_len: usize, num_atom:
        usize,
    ) -> u8;
    pub fn gf_crystal_report_compact_fc4(
        fc: *const f64, fc_len: usize, p2s: *const i64, p2s_len: usize, s2pp: *const i64, s2pp_len: usize, nsym_list: *const
        i64, nsym_list_len: usize, perms: *const i64, perms_len: usize, r_carts: *const f64, r_carts_len: usize, operations:
        *const i64, operations_len: usize, value: *mut f64, value_len: usize, place: *mut usize, place_len: usize, n_satom:
        usize, n_patom: usize, num_trans: usize, num_rot: usize,
    ) -> u8;
    pub fn gf_crystal_report_fc4(
        fc: *const f64, fc_len: usize, r_carts: *const f64, r_carts_len: usize, operations: *const i64, operations_len: usize,
        value: *mut f64, value_len: usize, place: *mut usize, place_len: usize, num_atom: usize, num_rot: usize,
    ) -> u8;
    pub fn gf_drift_report_compact_fc3(
        fc: *const f64, fc_len: usize, p2s: *const i64, p2s_len: usize, s2pp: *const i64, s2pp_len: usize, nsym_list: *const
        i64, nsym_list_len: usize, perms: *const i64, perms_len: usize, value: *mut f64, value_len: usize, place: *mut usize,
        place_len: usize, n_satom: usize, n_patom: usize, num_trans: usize,
    ) -> u8;
    pub fn gf_drift_report_compact_fc4(
        fc: *const f64, fc_len: usize, p2s: *const i64, p2s_len: usize, s2pp: *const i64, s2pp_len: usize, nsym_list: *const
        i64, nsym_list_len: usize, perms: *const i64, perms_len: usize, value: *mut f64, value_len: usize, place: *mut usize,
        place_len: usize, n_satom: usize, n_patom: usize, num_trans: usize,
    ) -> u8;
    pub fn gf_drift_report_fc4(
        fc: *const f64, fc_len: usize, value: *mut f64, value_len: usize, place: *mut usize, place_len: usize, num_atom:
        usize,
    ) -> u8;
    pub fn gf_perm_trans_symmetrize_fc3(
        fc3: *mut f64, fc3_len: usize, drift: *mut f64, drift_len: usize, num_atom: usize, level: usize,
    ) -> u8;
    pub fn gf_perm_trans_symmetrize_compact_fc3(
        fc3: *mut f64, fc3_len: usize, p2s: *const i64, p2s_len: usize, s2pp: *const i64, s2pp_len: usize, nsym_list: *const
        i64, nsym_list_len: usize, perms: *const i64, perms_len: usize, done: *mut u8, done_len: usize, drift: *mut f64,
        drift_len: usize, n_satom: usize, n_patom: usize, num_trans: usize, level: usize,
    ) -> u8;
    pub fn gf_perm_trans_symmetrize_fc4(
        fc4: *mut f64, fc4_len: usize, done: *mut u8, done_len: usize, drift: *mut f64, drift_len: usize, num_atom: usize,
        level: usize,
    ) -> u8;
    pub fn gf_perm_trans_symmetrize_compact_fc4(
        fc4: *mut f64, fc4_len: usize, p2s: *const i64, p2s_len: usize, s2pp: *const i64, s2pp_len: usize, nsym_list: *const
        i64, nsym_list_len: usize, perms: *const i64, perms_len: usize, done: *mut u8, done_len: usize, drift: *mut f64,
        drift_len: usize, n_satom: usize, n_patom: usize, num_trans: usize, level: usize,
    ) -> u8;
    pub fn gf_is_roll(lent: *const u8, lent_len: usize, count: usize) -> bool;
    pub fn gf_read_roll(
        lent: *const u8, lent_len: usize, count: usize, at: usize, slots: *mut usize, slots_len: usize,
    ) -> u8;
    pub fn gf_is_roll_former(lent: *const u8, lent_len: usize, count: usize) -> bool;
    pub fn gf_read_roll_former(
        lent: *const u8, lent_len: usize, count: usize, at: usize, slots: *mut usize, slots_len: usize,
    ) -> u8;
    pub fn gf_append_roll(
        lent: *mut u8, lent_len: usize, count: usize, kind: u8, set: u32, earlier: u32, label: *const u8,
        label_len: usize, new_count: *mut usize, new_count_len: usize,
    ) -> u8;
    pub fn gf_stands_now(
        lent: *const u8, lent_len: usize, count: usize, set: u32, use_set: *mut usize, use_set_len: usize,
    ) -> u8;
    pub fn gf_retire_all(lent: *mut u8, lent_len: usize, count: usize, set: u32, new_count: *mut usize, new_count_len: usize) -> u8;
}
