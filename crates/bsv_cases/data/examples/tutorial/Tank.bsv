// The attribute says which rule goes first where both are ready.
(* descending_urgency = "drain, fill" *)
module mkTank(Empty);
  Reg#(Bit#(4)) level <- mkReg(0);

  rule fill;
    level <= level + 1;
  endrule

  rule drain (level >= 3);
    level <= level - 3;
  endrule
endmodule
