module mkA(Empty); endmodule
)