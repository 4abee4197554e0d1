// The same tank with two methods, which the lines of a trace call.
interface Tank;
  method Action pour(Bit#(4) n);
  method Bit#(4) shown();
endinterface

(* descending_urgency = "drain, fill" *)
module mkTank(Tank);
  Reg#(Bit#(4)) level <- mkReg(0);

  rule fill;
    level <= level + 1;
  endrule

  rule drain (level >= 3);
    level <= level - 3;
  endrule

  method Action pour(Bit#(4) n) if (level < 8);
    level <= level + n;
  endmethod

  method Bit#(4) shown();
    return level;
  endmethod
endmodule
