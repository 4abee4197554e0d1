// A register that methods of several widths set: what the cases of traces ask of it.
interface Traced;
  method Action set(Bit#(4) a);
  method ActionValue#(Bit#(4)) swap(Bit#(4) a, Bool b);
  method Bit#(4) get();
  method Action wide(Bit#(128) a);
endinterface

module mkT(Traced);
  Reg#(Bit#(4)) x <- mkReg(0);

  method Action set(Bit#(4) a);
    x <= a;
  endmethod

  method ActionValue#(Bit#(4)) swap(Bit#(4) a, Bool b);
    x <= b ? a : ~a;
    return x;
  endmethod

  method Bit#(4) get();
    return x;
  endmethod

  method Action wide(Bit#(128) a);
    x <= a[127:124];
  endmethod
endmodule
