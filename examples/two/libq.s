        .sect ".text"
        .global twice
twice:  STW .D2T2 B14,*B15--[2]           ; save the caller's data base
        LDW .D2T2 *+B14(%dsbt_index),B14  ; the data base of this library
        NOP 4
        LDW .D2T1 *+B14(count),A5
        NOP 4
        ADD .L1 A4,A5,A4
        STW .D2T1 A4,*+B14(count)
        LDW .D2T2 *++B15[2],B14
        BNOP .S2 B3,5
        .sect ".neardata"
count:  .word 10
