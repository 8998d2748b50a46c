.sect ".text"
MVQ .S1 5,A4
