// What the packages of this example share: a job, and how long it takes.
package Jobs;

typedef struct {
  Bit#(4) number;
  Bit#(2) size;
} Job deriving (Bits, Eq);

function Bit#(3) clocks_of(Job job) = zeroExtend(job.size) + 1;

endpackage
