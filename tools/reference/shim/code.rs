// The codes that the formatter files test for, grouped as those tests group them.
use rows::{Flag, Row};

// The first and the last code of the FPU's range. All other codes are numbered from 1.
const FIRST: u32 = if cfg!(fpu) { 0 } else { 1000 };
const LAST: u32 = if cfg!(fpu) { 1000 } else { 1001 };

#[allow(non_camel_case_types)]
#[repr(u32)]
#[derive(Copy, Clone, Debug, PartialEq, Eq)]
pub(crate) enum Code {
    #[allow(dead_code)]
    Fadd_m32fp = FIRST,
    Fcomip_st0_sti = LAST,
    INVALID = 1,
    DeclareByte,
    DeclareWord,
    DeclareDword,
    DeclareQword,
    Zero_bytes,
    /// Any code that no test names.
    Untested,
    Fldcw_m2byte,
    Fnstcw_m2byte,
    Fstcw_m2byte,
    Fnstsw_m2byte,
    Fstsw_m2byte,
    Sgdt_m1632_16,
    Sgdt_m1632,
    Sgdt_m1664,
    Sidt_m1632_16,
    Sidt_m1632,
    Sidt_m1664,
    Fcomi_st0_sti,
    Fucomi_st0_sti,
    Fucomip_st0_sti,
    Tpause_r32,
    Tpause_r64,
    Umwait_r32,
    Umwait_r64,
    Pblendvb_xmm_xmmm128,
    Blendvps_xmm_xmmm128,
    Blendvpd_xmm_xmmm128,
    Sha256rnds2_xmm_xmmm128,
    Aesencwide128kl_m384,
    Aesdecwide128kl_m384,
    Aesencwide256kl_m512,
    Aesdecwide256kl_m512,
    Loadiwkey_xmm_xmm,
    Encodekey128_r32_r32,
    Encodekey256_r32_r32,
    Hreset_imm8,
}
use Code::*;

/// The codes of each tag.
#[rustfmt::skip]
const TAGGED: [&[Code]; 17] = [
    &[Untested],
    &[INVALID],
    &[DeclareByte],
    &[DeclareWord],
    &[DeclareDword],
    &[DeclareQword],
    &[Zero_bytes],
    &[Fldcw_m2byte, Fnstcw_m2byte, Fstcw_m2byte, Fnstsw_m2byte, Fstsw_m2byte],
    &[Sgdt_m1632_16, Sgdt_m1632, Sgdt_m1664, Sidt_m1632_16, Sidt_m1632, Sidt_m1664],
    &[Fcomi_st0_sti, Fcomip_st0_sti, Fucomi_st0_sti, Fucomip_st0_sti],
    &[Tpause_r32, Tpause_r64, Umwait_r32, Umwait_r64],
    &[Pblendvb_xmm_xmmm128, Blendvps_xmm_xmmm128, Blendvpd_xmm_xmmm128, Sha256rnds2_xmm_xmmm128],
    &[Aesencwide128kl_m384, Aesdecwide128kl_m384, Aesencwide256kl_m512, Aesdecwide256kl_m512],
    &[Loadiwkey_xmm_xmm],
    &[Encodekey128_r32_r32],
    &[Encodekey256_r32_r32],
    &[Hreset_imm8],
];

impl Code {
    /// A code of the row's tag that lies in the FPU's range exactly if the row's FPU bit is set.
    pub(crate) fn of(row: &Row, turn: usize) -> Code {
        let fitting: Vec<Code> = TAGGED[row.tag]
            .iter()
            .copied()
            .filter(|code| code.in_range() == row.has(Flag::Fpu))
            .collect();
        fitting[turn % fitting.len()]
    }

    fn in_range(self) -> bool {
        (FIRST..=LAST).contains(&(self as u32))
    }

    pub(crate) fn is_pseudo(self) -> bool {
        matches!(
            self,
            INVALID | DeclareByte | DeclareWord | DeclareDword | DeclareQword | Zero_bytes
        )
    }
}
