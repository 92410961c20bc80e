// ---- appended by oracle/build: opens private functions, changes nothing above ----

impl<'a> Disassembler<'a> {
    pub fn open_num_field(&self, id: ObjId, slot: usize, flags_smi: bool) -> Option<u32> {
        self.num_field(id, slot, flags_smi)
    }

    pub fn open_smi_slot(&self, id: ObjId, slot: usize) -> Option<i64> {
        self.smi_slot(id, slot)
    }

    pub fn open_jump_target(&self, bca_id: ObjId, ins: &Instr) -> Option<usize> {
        self.jump_target(bca_id, ins)
    }

    pub fn open_jump_table(&self, bca_id: ObjId, ins: &Instr) -> Option<Vec<(i32, usize)>> {
        self.jump_table(bca_id, ins)
    }

    pub fn open_render_sfi(&self, id: ObjId, name: &str, out: &mut String) -> Result<(), String> {
        self.render_sfi(id, name, out)
    }
}

pub fn open_max_register(instrs: &[Instr]) -> Option<i32> {
    max_register(instrs)
}
