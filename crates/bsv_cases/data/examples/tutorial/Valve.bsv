// A tank whose interface has a struct of another package.
import Flow::*;

interface Valve;
  method Action turn(Flow f);
  method Flow last();
endinterface

module mkValve(Valve);
  Reg#(Bit#(4)) level <- mkReg(0);
  Reg#(Flow) flow <- mkReg(Flow { way: In, n: 0 });

  method Action turn(Flow f);
    level <= f.way == In ? level + f.n : level - f.n;
    flow <= f;
  endmethod

  method Flow last();
    return flow;
  endmethod
endmodule
