// Two stages with queues around them: a rule waits for its queues, and for nothing else. Both stages work in
// one clock, each on an item of its own: `mkPipelineFIFO` takes an item in the clock in which the one before
// it leaves. Where nobody takes the results the queues fill from behind, until `put` is blocked.
package Pipeline;

import FIFO::*;
import SpecialFIFOs::*;

interface Pipeline;
  method Action put(Bit#(8) x);
  method ActionValue#(Bit#(8)) get();
endinterface

module mkPipeline(Pipeline);
  FIFO#(Bit#(8)) items <- mkFIFO;
  FIFO#(Bit#(8)) doubled <- mkPipelineFIFO;
  FIFO#(Bit#(8)) results <- mkFIFO;

  rule double;
    doubled.enq(items.first + items.first);
    items.deq;
  endrule

  rule increment;
    results.enq(doubled.first + 1);
    doubled.deq;
  endrule

  method Action put(Bit#(8) x);
    items.enq(x);
  endmethod

  method ActionValue#(Bit#(8)) get();
    results.deq;
    return results.first;
  endmethod
endmodule

endpackage
