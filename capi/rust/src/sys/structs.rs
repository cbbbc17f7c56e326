//! The structs of `feddurzai.h`. `tests/layout.rs` compares their sizes and the offsets of their fields with those of a C
//! compiler.

/// Declares structs of C, and the table of their fields that `tests/layout.rs` compares with the header.
macro_rules! structs {
    ($($(#[$about:meta])* $name:ident = $c:literal { $($field:ident: $kind:ty,)* })*) => {
        $(
            $(#[$about])*
            #[repr(C)]
            #[derive(Clone, Copy, Debug, Default, PartialEq, Eq, Hash)]
            pub struct $name { $(pub $field: $kind,)* }

            #[allow(dead_code)]
            impl $name {
                /// The struct with all fields 0.
                // SAFETY: all fields are integers, or arrays or structs of integers.
                pub const ZERO: $name = unsafe { core::mem::transmute([0_u8; core::mem::size_of::<$name>()]) };
            }
        )*

        /// Calls `seen` with the name in C, the size, and the offset of each field of each struct.
        #[doc(hidden)]
        pub fn each_layout(mut seen: impl FnMut(&str, usize, &[(&str, usize)])) {
            $({
                let one = $name::default();
                let at = &one as *const $name as usize;
                seen($c, core::mem::size_of::<$name>(), &[$((stringify!($field), &one.$field as *const $kind as usize - at)),*]);
            })*
        }
    };
}

structs! {
    /// An operand.
    Operand = "feddurzai_operand" {
        value: u64,
        offset: u32,
        selector: u16,
        kind: u8,
        reg_class: u8,
        reg_number: u8,
        index_class: u8,
        index_number: u8,
        scale: u8,
        disp_bits: u8,
    }
    /// An instruction.
    Instr = "feddurzai_instr" {
        ops: [Operand; 4],
        code: u16,
        len: u8,
        lock: u8,
        rep: u8,
        segment: u8,
        asize: u8,
    }
    /// A piece of a text.
    Piece = "feddurzai_piece" {
        value: u64,
        start: u8,
        end: u8,
        kind: u8,
        operand: u8,
        role: u8,
        width: u8,
    }
    /// A part of an instruction.
    Part = "feddurzai_part" {
        at: u8,
        len: u8,
    }
    /// The parts of an instruction.
    ByteOffsets = "feddurzai_byte_offsets" {
        prefixes: Part,
        lead: Part,
        opcode: Part,
        modrm: Part,
        sib: Part,
        displacement: Part,
        immediates: [Part; 4],
    }
    /// A register and its access.
    Use = "feddurzai_use" {
        reg_class: u8,
        reg_number: u8,
        access: u8,
    }
    /// What `feddurzai_info` reports.
    About = "feddurzai_about" {
        target: u64,
        ip_address: u64,
        has_target: u8,
        has_ip_address: u8,
        flow: u8,
        memory_size: u8,
        access: [u8; 4],
        use_count: u8,
        uses: [Use; 8],
    }
    /// Memory that an instruction accesses.
    MemoryUse = "feddurzai_memory_use" {
        displacement: u64,
        size: u16,
        segment: u8,
        base_class: u8,
        base_number: u8,
        index_class: u8,
        index_number: u8,
        scale: u8,
        access: u8,
    }
    /// What an instruction touches.
    Touched = "feddurzai_touched" {
        features: u64,
        flags_read: u32,
        flags_written: u32,
        flags_cleared: u32,
        flags_set: u32,
        flags_undefined: u32,
        flags_kept: u32,
        memory: [MemoryUse; 4],
        registers: [Use; 32],
        memory_count: u8,
        register_count: u8,
    }
    /// A moved instruction.
    Moved = "feddurzai_moved" {
        old_ip: u64,
        new_ip: u64,
        len: u8,
        form: u8,
    }
    /// The report of a move.
    MoveReport = "feddurzai_move_report" {
        bytes: u64,
        count: u64,
        at: u64,
        address: u64,
        code_bytes: u64,
        slots_at: u64,
    }
    /// A block to move.
    Block = "feddurzai_block" {
        old_ip: u64,
        new_ip: u64,
        offset: u64,
        len: u64,
    }
    /// The place of a moved block in the output.
    PlacedBlock = "feddurzai_placed_block" {
        end: u64,
        code_bytes: u64,
        count: u64,
    }
    /// The report of a move of blocks.
    BlocksReport = "feddurzai_blocks_report" {
        bytes: u64,
        count: u64,
        block: u64,
        at: u64,
        address: u64,
    }
    /// A region.
    Region = "feddurzai_region" {
        base: u64,
        size: u64,
        count: u64,
    }
    /// A live block of a region.
    Live = "feddurzai_live" {
        place: u64,
        len: u64,
    }
    /// The report of a step.
    StepReport = "feddurzai_step_report" {
        bytes: u64,
        back_at: u64,
        address: u64,
        len: u8,
        done_at: u8,
    }
    /// The report of a detour.
    DetourReport = "feddurzai_detour_report" {
        taken: u64,
        bytes: u64,
        jump_back: u64,
        slots_at: u64,
        relay_at: u64,
        at: u64,
        target: u64,
        form: u8,
    }
    /// What is seen of a function before a hook.
    View = "feddurzai_view" {
        sight_at: u64,
        entered_from: u64,
        entered_target: u64,
        inside: u64,
        suspect_from: u64,
        suspect_target: u64,
        sight: u8,
        is_entered: u8,
        has_inside: u8,
        has_suspect: u8,
    }
    /// A moved instruction of a detour.
    MovedStart = "feddurzai_moved_start" {
        start: u64,
        place: u64,
    }
    /// The report of a detour by rules.
    HookReport = "feddurzai_hook_report" {
        detour: DetourReport,
        view: View,
        moved: u64,
        call: u64,
    }
    /// The report of a detour that keeps an ENDBR.
    KeptReport = "feddurzai_kept_report" {
        hook: HookReport,
        kept: u64,
    }
    /// The report of a detour through padding.
    PaddedReport = "feddurzai_padded_report" {
        hook: HookReport,
        jump: u64,
        padding: u64,
    }
    /// A label of a routine.
    Label = "feddurzai_label" {
        address: u64,
        offset: u64,
        len: u64,
        line: u64,
        has_address: u8,
    }
    /// The report of a routine.
    RoutineReport = "feddurzai_routine_report" {
        bytes: u64,
        slots: u64,
        labels: u64,
        line: u64,
        column: u64,
        at: u64,
        address: u64,
    }
}
