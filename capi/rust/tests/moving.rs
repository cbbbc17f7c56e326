//! Moved code, regions, steps and hooks. The bytes of branches are those of the Intel SDM.

use feddurzai::{
    move_blocks, move_code, move_code_outside, move_code_unlisted, step, step_call, step_len, Block, BlockEncoder,
    BlockEncoderOptions, BlocksError, Code, Decoder, DecoderOptions, Detour, DetourForm, DetourStart, Error,
    Instruction, InstructionBlock, MovedForm, Region, StepSlots,
};

fn decode(bitness: u32, ip: u64, code: &[u8]) -> Vec<Instruction> {
    Decoder::with_ip(bitness, code, ip, DecoderOptions::NONE).into_iter().collect()
}

#[test]
fn branches_keep_their_targets() {
    // call 0x2000 at 0x1000: E8 and the distance from the end
    let call = move_code(64, 0x1000, b"\xE8\xFB\x0F\x00\x00", 0x1800).unwrap();
    assert_eq!((call.code(), call.code_len(), call.has_slots()), (&b"\xE8\xFB\x07\x00\x00"[..], 5, false));
    // je 0x1012 grows to 0F 84
    let je = move_code(64, 0x1000, b"\x74\x10", 0x2000).unwrap();
    assert_eq!((je.code(), je.instructions()[0].form), (&b"\x0F\x84\x0C\xF0\xFF\xFF"[..], MovedForm::Near));
    // lea rax, [rel 0x1017]
    let lea = move_code(64, 0x1000, b"\x48\x8D\x05\x10\x00\x00\x00", 0x1100).unwrap();
    assert_eq!(lea.into_code(), b"\x48\x8D\x05\x10\xFF\xFF\xFF");
    // a target that is moved is followed, or kept
    let own_loop = b"\x90\xEB\xFD";
    assert_eq!(move_code(64, 0x1000, own_loop, 0x5000).unwrap().code(), own_loop);
    assert_eq!(move_code_outside(64, 0x1000, own_loop, 0x1010).unwrap().code(), b"\x90\xEB\xED");
    // vpxord zmm0, zmm0, [rip+0x10], and a jump back to it
    let evex = b"\x62\xF1\x7D\x48\xEF\x05\x10\0\0\0\xEB\xF4";
    let moved = move_code_unlisted(64, 0x1000, evex, 0x2000).unwrap();
    assert_eq!(moved.code(), b"\x62\xF1\x7D\x48\xEF\x05\x10\xF0\xFF\xFF\xEB\xF4");
    assert_eq!((moved.instructions()[0].len, moved.instructions()[0].form), (10, MovedForm::Near));
    assert_eq!(move_code(64, 0x1000, evex, 0x2000), Err(Error::Invalid { at: 0 }));
    // out of reach: jne over jmp [rip], CC, and the slot with the target
    let far = move_code(64, 0x1000, b"\x74\x10", 0x7FFF_0000_0000).unwrap();
    assert_eq!(far.code(), b"\x75\x06\xFF\x25\x00\x00\x00\x00\x12\x10\x00\x00\x00\x00\x00\x00");
    assert_eq!((far.code_len(), far.instructions()[0].form, far.has_slots()), (8, MovedForm::Far, true));
    assert!(move_code(64, 0, b"", 0).unwrap().code().is_empty());
}

#[test]
fn moves_are_refused() {
    assert_eq!(move_code(15, 0, b"\x90", 0), Err(Error::BadMode));
    assert_eq!(move_code(64, 0, b"\x90\x06", 0), Err(Error::Invalid { at: 1 }));
    assert_eq!(move_code(64, 0, b"\x90\x48", 0), Err(Error::TooShort { at: 1 }));
    assert_eq!(move_code(64, u64::MAX, b"\x90\x90", 0), Err(Error::Wraps { end: 1 }));
    assert_eq!(move_code(64, 0, b"\x90\x90", u64::MAX), Err(Error::Wraps { end: 1 }));
    assert_eq!(move_code(64, 0, &vec![0x90; (1 << 20) + 1], 0), Err(Error::TooLarge));
    assert_eq!(move_code(64, 0, &vec![0x90; 65537], 0x10_0000), Err(Error::TooMany { count: 65537 }));
    let lea = Err(Error::TooFar { instruction: 1, target: 0x1008 });
    assert_eq!(move_code(64, 0x1000, b"\x90\x48\x8D\x05\x00\x00\x00\x00", 0x7FFF_0000_0000), lea);
    assert_eq!(move_code_outside(32, 0, b"\x06", u64::MAX), Err(Error::Wraps { end: 0 }));
}

#[test]
fn blocks_follow_each_other() {
    let hot = Block::new(0x1000, b"\x0F\x85\xFA\x00\x00\x00\xC3", 0x2000);
    let cold = Block::new(0x1100, b"\xE9\x01\xFF\xFF\xFF", 0x2020);
    let moved = move_blocks(64, &[hot, cold]).unwrap();
    assert_eq!(
        (moved[0].code(), moved[1].code()),
        (&b"\x0F\x85\x1A\x00\x00\x00\xC3"[..], &b"\xE9\xE1\xFF\xFF\xFF"[..])
    );
    assert_eq!((moved[0].instructions().len(), moved[1].instructions()[0].new_ip), (2, 0x2020));
    assert_eq!(move_blocks(64, &[]), Ok(vec![]));
    let bad = Block::new(0x1100, b"\x90\x06", 0x2020);
    assert_eq!(move_blocks(64, &[hot, bad]), Err(BlocksError { block: Some(1), error: Error::Invalid { at: 1 } }));
    assert_eq!(move_blocks(0, &[hot]), Err(BlocksError { block: None, error: Error::BadMode }));
    let far = Block::new(0x1000, b"\x48\x8D\x05\x00\x00\x00\x00", 0x7FFF_0000_0000);
    assert_eq!(
        move_blocks(64, &[cold, far]).map_err(|refused| refused.to_string()).unwrap_err(),
        "block 1: an instruction cannot reach its target from its new address: instruction 0, target 0x1007"
    );
    assert_eq!(Error::from(BlocksError::from(Error::Empty)), Error::Empty);
}

#[test]
fn instructions_are_moved_as_their_bytes_are() {
    let code = decode(64, 0x1000, b"\x74\x10\x90\xEB\xFB");
    let none = BlockEncoderOptions::NONE;
    let result = BlockEncoder::encode(64, InstructionBlock::new(&code, 0x9000), none).unwrap();
    assert_eq!(result.code_buffer, b"\x0F\x84\x0C\x80\xFF\xFF\x90\xEB\xF7");
    assert_eq!((result.rip, result.code_len, &result.new_instruction_offsets[..]), (0x9000, 9, &[0, 6, 7][..]));
    assert_eq!(result.forms, [MovedForm::Near, MovedForm::Itself, MovedForm::Short]);
    let kept =
        BlockEncoder::encode(64, InstructionBlock::new(&code, 0x1010), BlockEncoderOptions::KEEP_TARGETS).unwrap();
    assert_eq!(kept.code_buffer, b"\x74\x00\x90\xEB\xEB");
    // several
    let blocks = [InstructionBlock::new(&code, 0x9000), InstructionBlock::new(&[], 0x9100)];
    assert_eq!(BlockEncoder::encode_slice(64, &blocks, none).unwrap()[0], result);
    let kept_too = BlockEncoder::encode_slice(64, &blocks, BlockEncoderOptions::KEEP_TARGETS).unwrap();
    assert_eq!((kept_too.len(), kept_too[1].code_buffer.len()), (2, 0));
    // what is no decoded run is refused
    let scattered = |instruction| Err(Error::Scattered { instruction });
    let encode = |instructions: &[Instruction]| {
        BlockEncoder::encode(64, InstructionBlock::new(instructions, 0), none).map(|result| result.code_buffer)
    };
    assert_eq!(encode(&[code[0], code[2]]), scattered(1));
    assert_eq!(encode(&[Instruction::with(Code::Retnq).unwrap()]), scattered(0));
    let mut changed = code[0];
    changed.set_near_branch64(0x1000).unwrap();
    assert_eq!(encode(&[changed]), scattered(0));
    assert_eq!(encode(&decode(32, 0, b"\x90")), Err(Error::BadMode));
    assert_eq!(encode(&decode(64, 0, b"\x90\x06")), Err(Error::Invalid { at: 1 }));
    let changed = [changed];
    let pair = [InstructionBlock::new(&code, 0), InstructionBlock::new(&changed, 0)];
    let refused = BlockEncoder::encode_slice(64, &pair, none).unwrap_err();
    assert_eq!((refused.block, refused.error), (Some(1), Error::Scattered { instruction: 0 }));
}

#[test]
fn regions_give_out_places() {
    let mut region = Region::new(0x10000, 64, 2).unwrap();
    assert_eq!((region.base(), region.size(), region.image()), (0x10000, 64, &[0xCC; 64][..]));
    assert_eq!(
        (region.reserve(17), region.reserve(16), region.reserve(1)),
        (Ok(0x10000), Ok(0x10020), Err(Error::NoRoom))
    );
    assert!(region.live().map(|block| (block.place, block.len)).eq([(0x10000, 32), (0x10020, 16)]));
    assert_eq!((region.fill(0x10020, b"\x90"), region.fill(0x10020, &[0; 17])), (Ok(()), Err(Error::NoRoom)));
    assert_eq!((region.image()[0x20], region.image()[0x21]), (0x90, 0xCC));
    assert_eq!((region.release(0x10010), region.fill(7, b"")), (Err(Error::NotLive), Err(Error::NotLive)));
    assert_eq!(region.release(0x10020), Ok(()));
    assert_eq!(
        (region.image()[0x20], region.reserve(0), region.reserve(33)),
        (0xCC, Err(Error::Empty), Err(Error::Full))
    );
    assert_eq!(region.reserve(u64::MAX), Err(Error::Full));
    for (base, size, most) in [
        (0, 0, 1),
        (0, 15, 1),
        (0, 1 << 21, 1),
        (0, u64::MAX, 1),
        (0, 16, 0),
        (0, 16, 65537),
        (0, 16, usize::MAX),
        (u64::MAX, 16, 1),
    ] {
        assert_eq!(Region::new(base, size, most).err(), Some(Error::BadRegion), "{} {} {}", base, size, most);
    }
    assert!(Region::new(u64::MAX - 15, 16, 65536).is_ok());
}

#[test]
fn steps_run_one_instruction() {
    let made = step(64, 0x1000, b"\xE8\xFB\x0F\x00\x00\x90", 0x1800).unwrap();
    assert_eq!(made.code, b"\xE8\xFB\x07\x00\x00\xE9\xFB\xF7\xFF\xFF");
    assert_eq!((made.done_at, made.back_at, made.len), (5, 5, 5));
    // loop 0x1010 far from its target: e2 02, eb 05, e9 rel32, and the jump back
    let bridge = step(64, 0x1000, b"\xE2\x0E", 0x2000).unwrap();
    assert_eq!(bridge.code, b"\xE2\x02\xEB\x05\xE9\x07\xF0\xFF\xFF\xE9\xF4\xEF\xFF\xFF");
    assert_eq!((bridge.done_at, bridge.back_at, bridge.len), (2, 9, 2));
    assert!(step_len(64, 0x1000, b"\xE8\xFB\x0F\x00\x00", 0x1800).unwrap() >= made.code.len());
    assert_eq!(step(64, 0, b"\x06", 0), Err(Error::Invalid { at: 0 }));
    assert_eq!(step(64, 0, b"", 0), Err(Error::TooShort { at: 0 }));
    assert_eq!(step(16, 0x1000, b"\x90", 0xFFFE), Err(Error::Wraps { end: 0x10002 }));
    let far = step(64, 0x1000, b"\x48\x8D\x05\x00\x00\x00\x00", 0x7FFF_0000_0000);
    assert_eq!(far, Err(Error::TooFar { instruction: 0, target: 0x1007 }));
    assert_eq!((step(1, 0, b"\x90", 0), step_len(1, 0, b"\x90", 0)), (Err(Error::BadMode), Err(Error::BadMode)));

    // push 0x1005; mov dword ptr [rsp+4], 0; jmp 0x2000
    let made = step_call(64, 0x1000, b"\xE8\xFB\x0F\x00\x00", 0x1800).unwrap();
    assert_eq!(made.code, b"\x68\x05\x10\x00\x00\xC7\x44\x24\x04\x00\x00\x00\x00\xE9\xEE\x07\x00\x00");
    assert_eq!((made.done_at, made.len), (5, 5));
    assert_eq!(step_call(64, 0, b"\x90", 0), Err(Error::BadForm));

    let mut slots = StepSlots::new(64, 0x10000, 64, 4).unwrap();
    let place = slots.step(0x1000, b"\x50").unwrap();
    assert_eq!((place, slots.live()[0].old_ip, slots.live()[0].step.len), (0x10000, 0x1000, 1));
    assert_eq!(slots.image()[..6], b"\x50\xE9\xFB\x0F\xFF\xFF"[..]);
    assert_eq!(slots.step(0, b"\x06"), Err(Error::Invalid { at: 0 }));
    assert_eq!(
        slots.step(0x7FFF_0000_0000, b"\x48\x8D\x05\x00\x00\x00\x00").unwrap_err(),
        Error::TooFar { instruction: 0, target: 0x7FFF_0000_0007 }
    );
    assert_eq!((slots.live().len(), slots.finish(1), slots.finish(place)), (1, Err(Error::NotLive), Ok(())));
    assert!(slots.live().is_empty() && slots.image() == [0xCC; 64]);
    assert_eq!(StepSlots::new(16, 0xFFF0, 32, 4).err(), Some(Error::BadRegion));
    assert_eq!(StepSlots::new(48, 0, 32, 4).err(), Some(Error::BadMode));
    assert!(StepSlots::new(16, 0xFFF0, 16, 1).is_ok());
}

#[test]
fn hooks_have_two_parts() {
    let function = b"\x48\x83\xEC\x18\x31\xC0\xC3";
    let near = Detour::new(64, 0x1000, function, 0x2000, 0x3000, DetourStart::Moved).unwrap();
    assert_eq!((near.patch(), near.form()), (&b"\xE9\xFB\x0F\x00\x00\xCC"[..], DetourForm::Near));
    assert_eq!(near.trampoline(), b"\x48\x83\xEC\x18\x31\xC0\xE9\xFB\xDF\xFF\xFF");
    assert_eq!((near.jump_back(), near.slots_at(), near.relay_at()), (Some(6), None, None));
    let relay = Detour::new(64, 0x1000, function, 0x1122_3344_5566_7788, 0x3000, DetourStart::Moved).unwrap();
    let at = relay.relay_at().unwrap();
    assert_eq!((relay.form(), &relay.trampoline()[at..at + 6]), (DetourForm::Relay, &b"\xFF\x25\x00\x00\x00\x00"[..]));
    assert_eq!(relay.trampoline()[at + 6..], 0x1122_3344_5566_7788_u64.to_le_bytes());
    // a function that is long enough for 14 bytes, with all of it far away
    let long = [&b"\x90".repeat(20)[..], b"\xC3"].concat();
    let far = Detour::new(64, 0x1000, &long, 0x1122_3344_5566_7788, 0x7FFF_0000_0000, DetourStart::Hooked).unwrap();
    assert_eq!((far.form(), far.patch().len()), (DetourForm::Absolute, 14));
    assert_eq!(far.patch()[6..14], 0x1122_3344_5566_7788_u64.to_le_bytes());
}

#[test]
fn hooks_are_refused() {
    let detour =
        |bitness, code: &[u8]| Detour::new(bitness, 0x1000, code, 0x2000, 0x3000, DetourStart::Moved).map(|_| ());
    assert_eq!(detour(64, b"\x31\xC0\xFF\xC0\x39\xF8\x72\xFA\xC3"), Err(Error::Entered { from: 6, to: 2 }));
    assert_eq!(detour(64, b"\x90\xC3"), Err(Error::Small { function: 2, jump: 5 }));
    assert_eq!(detour(64, b""), Err(Error::Small { function: 0, jump: 5 }));
    assert_eq!(detour(64, b"\xC3\x55\x48\x89\xE5\xC3"), Err(Error::Ends { at: 1 }));
    assert_eq!(detour(64, b"\x90\x90\x06\x90\x90\x90"), Err(Error::Invalid { at: 2 }));
    assert_eq!(detour(1, b"\x90"), Err(Error::BadMode));
    assert_eq!(detour(64, &vec![0x90; (1 << 20) + 1]), Err(Error::TooLarge));
    let wraps = Detour::new(64, 0x1000, &[0x90; 20], 0x2000, u64::MAX, DetourStart::Moved);
    assert!(matches!(wraps, Err(Error::Wraps { .. })), "{:?}", wraps);
}

#[test]
fn hooks_follow_rules() {
    use feddurzai::{look, DetourRules, MovedStart, Passage, Sight, SightEnd, StartRule};
    let by = |code: &[u8], place, start, entries: &[u32], whole| {
        Detour::with_rules(
            64,
            0x1000,
            code,
            0x2000,
            place,
            start,
            DetourRules { entries, whole, ..DetourRules::default() },
        )
    };
    // mov rax, [rdi]; mov rcx, rax; vsubps zmm0, zmm0, zmm1, which has no row; jmp to the second one; ret
    let unread = b"\x48\x8B\x07\x48\x89\xC1\x62\xF1\x7C\x48\x28\xC1\xEB\xF5\xC3";
    let seen = by(unread, 0x3000, DetourStart::Moved, &[], false).unwrap();
    assert_eq!(Detour::new(64, 0x1000, unread, 0x2000, 0x3000, DetourStart::Moved), Ok(seen.detour));
    assert_eq!(seen.moved, [MovedStart { start: 0, place: 0 }, MovedStart { start: 3, place: 3 }]);
    assert_eq!(seen.view.sight, Sight::Ends { at: 6, why: SightEnd::NotRead });
    assert_eq!((seen.view.entered, seen.view.inside), (None, None));
    assert_eq!(seen.view.suspect, Some(Passage { from: 12, target: 3 }));
    assert_eq!(look(64, 0x1000, unread, &[], 6, &[0, 3], StartRule::Closed), Ok(seen.view));
    let refused = by(unread, 0x3000, DetourStart::Moved, &[], true).unwrap_err();
    assert_eq!(refused, Error::Unseen { at: 6, why: SightEnd::NotRead });
    // mov rax, [rdi]; jmp [8*rax+0x2000]; inc rdi; jmp to the first jump; ret
    let by_table = b"\x48\x8B\x07\xFF\x24\xC5\x00\x20\x00\x00\x48\xFF\xC7\xEB\xF4\xC3";
    let refused = by(by_table, 0x3000, DetourStart::Moved, &[], true).unwrap_err();
    assert_eq!(refused, Error::Unseen { at: 3, why: SightEnd::IndirectJump });
    let refused = by(by_table, 0x3000, DetourStart::Moved, &[10], true).unwrap_err();
    assert_eq!(refused, Error::Entered { from: 13, to: 3 });
    // cmp byte ptr [rdi], 0; je to the end; inc rdi; jmp to the start; ret
    let looping = b"\x80\x3F\x00\x74\x05\x48\xFF\xC7\xEB\xF6\xC3";
    let refused = by(looping, 0x3000, DetourStart::Moved, &[], false).unwrap_err();
    assert_eq!(refused, Error::Entered { from: 8, to: 0 });
    let seen = by(looping, 0x3000, DetourStart::Hooked, &[11, u32::MAX], true).unwrap();
    assert_eq!((seen.detour.patch().len(), seen.view.sight, seen.view.inside), (5, Sight::Whole, None));
    let refused = by(looping, 0x3000, DetourStart::Hooked, &[4, 3], false).unwrap_err();
    assert_eq!(refused, Error::Entered { from: 3, to: 3 });
    assert_eq!(by(looping, 0x100A, DetourStart::Hooked, &[], false), Err(Error::Overlaps));
    assert!(by(looping, 0x100B, DetourStart::Hooked, &[], false).is_ok());
    // push esi; call of a thunk; add esi, 0x2000; ret
    let thunk = b"\x56\xE8\x00\x01\x00\x00\x81\xC6\x00\x20\x00\x00\xC3";
    let by_call = |returns, no_calls| {
        let rules = DetourRules { returns, no_calls, ..DetourRules::default() };
        Detour::with_rules(32, 0x1000, thunk, 0x2000, 0x9000, DetourStart::Moved, rules)
    };
    let seen = by_call(true, true).unwrap();
    assert_eq!((seen.detour.trampoline(), seen.call), (&b"\x56\x68\x06\x10\x00\x00\xE9\xFB\x80\xFF\xFF"[..], None));
    assert_eq!(by_call(false, false).unwrap().call, Some(1));
    assert_eq!(by_call(false, true).unwrap_err(), Error::Calls { at: 1 });
    // an entry within is seen, and refused by no look; the code ends after the part that is overwritten
    let view = look(64, 0x1000, b"\x31\xC0\x31\xC0\x90\x48", &[2, 4], 5, &[0, 2, 4], StartRule::Open).unwrap();
    assert_eq!((view.sight, view.inside), (Sight::Ends { at: 5, why: SightEnd::Ended }, Some(2)));
    assert_eq!(look(0, 0, b"", &[], 0, &[], StartRule::Open), Err(Error::BadMode));
    assert_eq!(look(64, 0, &vec![0x90; (1 << 20) + 1], &[], 5, &[0], StartRule::Open), Err(Error::TooLarge));
}

#[test]
fn hooks_take_other_forms() {
    use feddurzai::DetourRules;
    let rules = DetourRules::default();
    // endbr64; cmp byte ptr [rdi], 0; je to the end; inc rdi; a jump back; ret
    let to_first = b"\xF3\x0F\x1E\xFA\x80\x3F\x00\x74\x05\x48\xFF\xC7\xEB\xF2\xC3";
    let to_fifth = b"\xF3\x0F\x1E\xFA\x80\x3F\x00\x74\x05\x48\xFF\xC7\xEB\xF6\xC3";
    let kept = |code: &[u8], start| Detour::keeping_endbr(64, 0x1000, code, 0x2000, 0x3000, start, rules);
    assert_eq!(kept(to_first, DetourStart::Moved), Err(Error::Entered { from: 12, to: 0 }));
    assert_eq!(kept(to_fifth, DetourStart::Moved), Err(Error::Entered { from: 12, to: 4 }));
    let made = kept(to_first, DetourStart::Hooked).unwrap();
    assert_eq!((made.kept, made.seen.detour.patch()), (4, &b"\xE9\xF7\x0F\x00\x00"[..]));
    assert_eq!(
        (&made.trampoline[..7], made.seen.detour.trampoline().len() + 4),
        (&to_first[..7], made.trampoline.len())
    );
    // mov eax, edi; ret, behind NOPs and INT3
    let padding = b"\x90\xCC\xCC\x66\x90\xCC\xCC\xCC";
    let padded = |padding: &[u8], code: &[u8], to, place| {
        Detour::through_padding(64, 0x1000, padding, code, to, place, DetourStart::Moved, rules)
    };
    let made = padded(padding, b"\x89\xF8\xC3", 0x2000, 0x3000).unwrap();
    assert_eq!((&made.jump[..], made.seen.detour.patch()), (&b"\xE9\x00\x10\x00\x00"[..], &b"\xEB\xF9"[..]));
    assert_eq!(made.seen.detour.trampoline(), b"\x89\xF8\xE9\xFB\xDF\xFF\xFF");
    let refused = |padding: &[u8], code: &[u8], place| padded(padding, code, 0x2000, place).unwrap_err();
    assert_eq!(refused(&padding[4..], b"\x89\xF8\xC3", 0x3000), Error::Padding { at: 4, need: 5 });
    assert_eq!(refused(b"\xCC\xCC\x31\xC0\xCC\xCC\xCC", b"\x89\xF8\xC3", 0x3000), Error::Padding { at: 2, need: 0 });
    assert_eq!(refused(padding, b"\x89\xF8\xEB\xF9", 0x3000), Error::Entered { from: 10, to: 5 });
    assert_eq!(refused(padding, b"\x89\xF8\xC3", 0xFF4), Error::Overlaps);
    // sub rsp, 0x18; xor eax, eax; ret
    let plain = b"\x48\x83\xEC\x18\x31\xC0\xC3";
    let room = |to| Detour::room(64, 0x1000, plain, to, DetourStart::Moved, rules);
    assert_eq!((room(0x2000), room(0x7FFF_0000_0000)), (Ok(27), Ok(41)));
    assert_eq!(Detour::room(17, 0, plain, 0, DetourStart::Moved, rules), Err(Error::BadMode));
}

/// Every message is a sentence of its own, and no error is lost.
#[test]
fn errors_are_shown() {
    use feddurzai::{Cause, SightEnd};
    let all = [
        Error::BadMode,
        Error::BadCode,
        Error::BadInstruction,
        Error::BadForm,
        Error::NoRoom,
        Error::Invalid { at: 1 },
        Error::TooShort { at: 1 },
        Error::NoName,
        Error::NoMemory,
        Error::TooLarge,
        Error::TooMany { count: 1 },
        Error::Wraps { end: 1 },
        Error::TooFar { instruction: 1, target: 2 },
        Error::NoText,
        Error::NoRegister,
        Error::Small { function: 1, jump: 2 },
        Error::Ends { at: 1 },
        Error::Entered { from: 1, to: 2 },
        Error::BadRegion,
        Error::Empty,
        Error::Full,
        Error::NotLive,
        Error::Unseen { at: 1, why: SightEnd::NotRead },
        Error::Unseen { at: 1, why: SightEnd::IndirectJump },
        Error::Unseen { at: 1, why: SightEnd::Ended },
        Error::Overlaps,
        Error::Calls { at: 1 },
        Error::Padding { at: 1, need: 0 },
        Error::Padding { at: 1, need: 5 },
        Error::NoEncoding { cause: Cause::Kind, operand: Some(1) },
        Error::NoEncoding { cause: Cause::Length, operand: None },
        Error::Scattered { instruction: 1 },
        Error::Interface { library: 1 },
        Error::Other { status: -99 },
    ];
    let texts: std::collections::HashSet<String> = all.iter().map(|error| error.to_string()).collect();
    assert_eq!(texts.len(), all.len());
    let boxed: Box<dyn std::error::Error + Send + Sync> = Box::new(Error::BadMode);
    assert_eq!(boxed.to_string(), "the bitness must be 16, 32 or 64");
    let blocks: Box<dyn std::error::Error> = Box::new(BlocksError { block: Some(2), error: Error::Empty });
    assert_eq!(blocks.source().map(|source| source.to_string()), Some("a block must have at least 1 byte".to_string()));
    assert_eq!(feddurzai::check_library(), Ok(()));
    assert_eq!(feddurzai::interface(), feddurzai::INTERFACE);
    assert!(feddurzai::version() >= (0, 2, 0));
}

/// All types are plain data.
#[test]
fn types_are_send_and_sync() {
    fn is<T: Send + Sync + Clone + std::fmt::Debug>() {}
    is::<Instruction>();
    is::<Decoder<'static>>();
    is::<feddurzai::Encoder>();
    is::<feddurzai::InstructionInfoFactory>();
    is::<feddurzai::IntelFormatter>();
    is::<feddurzai::MovedCode>();
    is::<Detour>();
    is::<feddurzai::SeenDetour>();
    is::<Region>();
    is::<StepSlots>();
    is::<feddurzai::FlowGraph>();
    is::<feddurzai::Text>();
    is::<Error>();
}
