// Who goes first: both rules put into one queue, so only one of them can fire in a clock. Where both are ready
// the more urgent one fires and stops the other, and the report says which by which. By the order of the text
// that would be `take_left`; `descending_urgency` turns it round.
package Arbiter;

import FIFO::*;

interface Arbiter;
  method Action left(Bit#(8) x);
  method Action right(Bit#(8) x);
  method ActionValue#(Bit#(8)) get();
endinterface

(* descending_urgency = "take_right, take_left" *)
module mkArbiter(Arbiter);
  FIFO#(Bit#(8)) lefts <- mkFIFO;
  FIFO#(Bit#(8)) rights <- mkFIFO;
  FIFO#(Bit#(8)) chosen <- mkFIFO;

  rule take_left;
    chosen.enq(lefts.first);
    lefts.deq;
  endrule

  rule take_right;
    chosen.enq(rights.first);
    rights.deq;
  endrule

  method Action left(Bit#(8) x);
    lefts.enq(x);
  endmethod

  method Action right(Bit#(8) x);
    rights.enq(x);
  endmethod

  method ActionValue#(Bit#(8)) get();
    chosen.deq;
    return chosen.first;
  endmethod
endmodule

endpackage
