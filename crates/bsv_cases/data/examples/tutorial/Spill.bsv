// A method that is blocked by a queue that it would not use: the guard of a call counts in an arm that is not taken.
import FIFO::*;

interface Tank;
  method Action pour(Bit#(4) n);
endinterface

module mkTank(Tank);
  Reg#(Bit#(4)) level <- mkReg(0);
  FIFO#(Bit#(4)) spills <- mkFIFO1;

  rule drain (level >= 3);
    level <= level - 3;
  endrule

  method Action pour(Bit#(4) n);
    level <= level + n;
    if (n > 4) spills.enq(n);
  endmethod
endmodule
