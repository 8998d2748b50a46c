.sect ".text"
MVK .S1 5,A4
