        .sect ".text"
        .global start
start:  STW .D1T1 A4,*A4          ; store the argument where it points: into the process's own text
        BNOP .S2 B3,5
