// The enums that the formatter files name, each in the order of a row's numbers.

/// Defines an enum and the list of its variants, by which a row's number becomes a variant.
macro_rules! numbered {
    ($name:ident { $($variant:ident),* $(,)? }) => {
        #[allow(non_camel_case_types)]
        #[derive(Copy, Clone, Debug, PartialEq, Eq)]
        pub(crate) enum $name { $($variant),* }
        impl $name {
            pub(crate) const ALL: &'static [$name] = &[$($name::$variant),*];
        }
    };
}

numbered! { EncodingKind { Legacy, VEX, EVEX, XOP, D3NOW, MVEX } }

numbered! { OpCodeTableKind { Normal, T0F, T0F38, T0F3A, MAP5, MAP6, MAP8, MAP9, MAP10 } }

numbered! { MandatoryPrefix { None, PNP, P66, PF3, PF2 } }

numbered! {
    InstrStrFmtOption {
        None,
        OpMaskIsK1_or_NoGprSuffix,
        IncVecIndex,
        NoVecIndex,
        SwapVecIndex12,
        SkipOp0,
        VecIndexSameAsOpIndex,
    }
}

numbered! {
    OpCodeOperandKind {
        r32_reg,
        r32_reg_mem,
        r32_rm,
        r32_opcode,
        r32_vvvv,
        r64_reg,
        r64_reg_mem,
        r64_rm,
        r64_opcode,
        r64_vvvv,
        bnd_or_mem_mpx,
        bnd_reg,
        None,
        farbr2_2,
        farbr4_2,
        mem_offs,
        mem,
        mem_mpx,
        mem_mib,
        mem_vsib32x,
        mem_vsib64x,
        mem_vsib32y,
        mem_vsib64y,
        mem_vsib32z,
        mem_vsib64z,
        r8_or_mem,
        r16_or_mem,
        r32_or_mem,
        r32_or_mem_mpx,
        r64_or_mem,
        r64_or_mem_mpx,
        mm_or_mem,
        xmm_or_mem,
        ymm_or_mem,
        zmm_or_mem,
        k_or_mem,
        r8_reg,
        r8_opcode,
        r16_reg,
        r16_reg_mem,
        r16_rm,
        r16_opcode,
        seg_reg,
        k_reg,
        kp1_reg,
        k_rm,
        k_vvvv,
        mm_reg,
        mm_rm,
        xmm_reg,
        xmm_rm,
        xmm_vvvv,
        xmmp3_vvvv,
        xmm_is4,
        xmm_is5,
        ymm_reg,
        ymm_rm,
        ymm_vvvv,
        ymm_is4,
        ymm_is5,
        zmm_reg,
        zmm_rm,
        zmm_vvvv,
        zmmp3_vvvv,
        cr_reg,
        dr_reg,
        tr_reg,
        es,
        cs,
        ss,
        ds,
        fs,
        gs,
        al,
        cl,
        ax,
        dx,
        eax,
        rax,
        st0,
        sti_opcode,
        imm4_m2z,
        imm8,
        imm8_const_1,
        imm8sex16,
        imm8sex32,
        imm8sex64,
        imm16,
        imm32,
        imm32sex64,
        imm64,
        seg_rDI,
        br16_1,
        br32_1,
        br64_1,
        br16_2,
        br32_4,
        br64_4,
        xbegin_2,
        xbegin_4,
        brdisp_2,
        brdisp_4,
        sibmem,
        tmm_reg,
        tmm_rm,
        tmm_vvvv,
        seg_rSI,
        es_rDI,
        seg_rBX_al,
    }
}
