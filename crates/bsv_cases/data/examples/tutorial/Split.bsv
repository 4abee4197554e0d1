// The same with a rule for the queue, and a register that shows what was on a wire.
import FIFO::*;

interface Tank;
  method Action pour(Bit#(4) n);
endinterface

module mkTank(Tank);
  Reg#(Bit#(4)) level <- mkReg(0);
  FIFO#(Bit#(4)) spills <- mkFIFO1;
  Wire#(Bit#(4)) poured <- mkWire;
  Reg#(Bit#(4)) seen <- mkReg(0);

  rule drain (level >= 3);
    level <= level - 3;
  endrule

  rule spill (poured > 4);
    spills.enq(poured);
  endrule

  rule see;
    seen <= poured;
  endrule

  method Action pour(Bit#(4) n);
    level <= level + n;
    poured <= n;
  endmethod
endmodule
