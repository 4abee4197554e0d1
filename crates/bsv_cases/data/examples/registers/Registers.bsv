// A register file: an array of registers, made by a loop. Its indexes are static, so a place that is known
// only in a clock is looked for by a loop over all of them. What is read in a clock is what was there
// before it, also where that register is written in the same clock.
package Registers;

interface Registers;
  method Action write(Bit#(2) place, Bit#(8) value);
  method Bit#(8) read(Bit#(2) place);
endinterface

module mkRegisters(Registers);
  Reg#(Bit#(8)) cells[4];
  for (Integer i = 0; i < 4; i = i + 1) cells[i] <- mkReg(0);

  method Action write(Bit#(2) place, Bit#(8) value);
    for (Integer i = 0; i < 4; i = i + 1)
      if (place == fromInteger(i)) cells[i] <= value;
  endmethod

  method Bit#(8) read(Bit#(2) place);
    Bit#(8) value = 0;
    for (Integer i = 0; i < 4; i = i + 1)
      if (place == fromInteger(i)) value = cells[i];
    return value;
  endmethod
endmodule

endpackage
