        .sect ".text"
        .global start
start:  STW .D2T2 B3,*B15--[2]
        CALLP .S2 twice,B3
        LDW .D2T2 *++B15[2],B3
        NOP 4
        BNOP .S2 B3,5
