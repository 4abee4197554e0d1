package Gcd;
interface Gcd;
  method Action start(Bit#(8) a, Bit#(8) b);
  method Bit#(8) result();
endinterface
(* synthesize *)
module mkGcd(Gcd);
  Reg#(Bit#(8)) x <- mkReg(0);
  Reg#(Bit#(8)) y <- mkReg(0);
  rule swap (x > y && y != 0); x <= y; y <= x; endrule
  rule subtract (x <= y && y != 0); y <= y - x; endrule
  method Action start(Bit#(8) a, Bit#(8) b) if (y == 0); x <= a; y <= b; endmethod
  method Bit#(8) result() if (y == 0); return x; endmethod
endmodule: mkGcd
endpackage: Gcd
