// A register, and a rule that adds to it in each clock.
module mkTank(Empty);
  Reg#(Bit#(4)) level <- mkReg(0);

  rule fill;
    level <= level + 1;
  endrule
endmodule
