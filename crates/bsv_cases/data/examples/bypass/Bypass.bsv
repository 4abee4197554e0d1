// What is put on a wire is read in the same clock, and gone in the next one. A rule that reads a `mkWire`
// waits for the write; one that reads a `mkDWire` never waits, and has the default where nothing was
// written. Who writes a wire takes effect before who reads it: `put` before the rules, in both orders.
package Bypass;

interface Bypass;
  method Action put(Bit#(8) x);
endinterface

module mkBypass(Bypass);
  Wire#(Bit#(8)) sent <- mkWire;
  Wire#(Bit#(8)) level <- mkDWire(1);
  Reg#(Bit#(8)) sum <- mkReg(0);
  Reg#(Bit#(8)) last <- mkReg(0);

  rule add;
    sum <= sum + sent;
  endrule

  rule note;
    last <= level;
  endrule

  method Action put(Bit#(8) x);
    sent <= x;
    level <= x;
  endmethod
endmodule

endpackage
