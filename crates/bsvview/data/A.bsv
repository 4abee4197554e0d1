module mkA(Empty);
Reg#(Bit#(4)) x <- mkReg(0); rule incr (x < 3); x <= x + 1; endrule
endmodule
