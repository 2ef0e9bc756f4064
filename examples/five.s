addi x10, x0, 5
jalr x0, 0(x1)
