// A machine of states: an enum names them, a register holds the one it is in, and a `case` says what comes
// next. `count` and `change` have conditions that exclude each other. The button may be pressed while the
// light is green: then `press` has the last word on `left`, behind `count`, and the light changes at once.
package Lights;

typedef enum { Red, Green, Yellow } Light deriving (Bits, Eq);

interface Lights;
  method Action press();
  method Light shown();
endinterface

module mkLights(Lights);
  Reg#(Light) light <- mkReg(Red);
  Reg#(Bit#(3)) left <- mkReg(1);

  rule count (left != 0);
    left <= left - 1;
  endrule

  rule change (left == 0);
    case (light)
      Red: begin
        light <= Green;
        left <= 4;
      end
      Green: begin
        light <= Yellow;
        left <= 1;
      end
      Yellow: begin
        light <= Red;
        left <= 2;
      end
    endcase
  endrule

  method Action press() if (light == Green);
    left <= 0;
  endmethod

  method Light shown();
    return light;
  endmethod
endmodule

endpackage
