// A worker takes a job, counts the clocks down, and gives the number of the job back. `finish` does two
// things at once, it gives the number and sets the worker free: that is what ActionValue methods are for.
package Worker;

import Jobs::*;

interface Worker;
  method Action begin_job(Job job);
  method ActionValue#(Bit#(4)) finish();
endinterface

module mkWorker(Worker);
  Reg#(Bool) busy <- mkReg(False);
  Reg#(Bit#(4)) number <- mkReg(0);
  Reg#(Bit#(3)) left <- mkReg(0);

  rule work (busy && left != 0);
    left <= left - 1;
  endrule

  method Action begin_job(Job job) if (!busy);
    busy <= True;
    number <= job.number;
    left <= clocks_of(job);
  endmethod

  method ActionValue#(Bit#(4)) finish() if (busy && left == 0);
    busy <= False;
    return number;
  endmethod
endmodule

endpackage
