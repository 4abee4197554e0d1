// Two types that another package imports.
typedef enum { In, Out } Way deriving (Bits, Eq);
typedef struct { Way way; Bit#(4) n; } Flow deriving (Bits, Eq);
