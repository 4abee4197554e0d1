// Several packages and a module with children: this file imports the others, which stand beside it. A rule
// that calls a method of a child waits for the condition of that method, without a condition of its own.
// `ann_begins` and `ben_begins` both take from `jobs`: where both workers are free, the first rule fires and
// stops the second one. This file is loaded first, so its interface names no type of those that it imports.
package Office;

import FIFO::*;
import Jobs::*;
import Worker::*;

interface Office;
  method Action submit(Bit#(4) number, Bit#(2) size);
  method ActionValue#(Bit#(4)) done();
endinterface

module mkOffice(Office);
  FIFO#(Job) jobs <- mkFIFO;
  FIFO#(Bit#(4)) finished <- mkFIFO;
  Worker ann <- mkWorker;
  Worker ben <- mkWorker;

  rule ann_begins;
    ann.begin_job(jobs.first);
    jobs.deq;
  endrule

  rule ben_begins;
    ben.begin_job(jobs.first);
    jobs.deq;
  endrule

  rule ann_ends;
    let number <- ann.finish();
    finished.enq(number);
  endrule

  rule ben_ends;
    let number <- ben.finish();
    finished.enq(number);
  endrule

  method Action submit(Bit#(4) number, Bit#(2) size);
    jobs.enq(Job { number: number, size: size });
  endmethod

  method ActionValue#(Bit#(4)) done();
    finished.deq;
    return finished.first;
  endmethod
endmodule

endpackage
