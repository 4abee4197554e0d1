// A second rule that never fires: it is ready, and the first one stops it.
module mkTank(Empty);
  Reg#(Bit#(4)) level <- mkReg(0);

  rule fill;
    level <= level + 1;
  endrule

  rule drain (level >= 3);
    level <= level - 3;
  endrule
endmodule
