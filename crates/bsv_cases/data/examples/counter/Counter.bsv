// A rule fires in each clock in which its condition holds, and what it writes is read from the next
// clock on: this one counts from 0, one step a clock, and stops at 3.
module mkCounter(Empty);
  Reg#(Bit#(4)) x <- mkReg(0);

  rule incr (x < 3);
    x <= x + 1;
  endrule
endmodule
