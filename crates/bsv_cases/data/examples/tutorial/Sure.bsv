// What a designer relies on is written down, and checked: here it does not hold.
module mkTank(Empty);
  Reg#(Bit#(4)) level <- mkReg(0);

  rule fill;
    level <= level + 1;
  endrule

  (* fire_when_enabled *)
  rule drain (level >= 3);
    level <= level - 3;
  endrule
endmodule
