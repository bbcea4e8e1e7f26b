# Exits with status 0: `clearview asm examples/hello.s` writes examples/hello.bin.
addi x17,x0,93      # the service exit
addi x10,x0,0       # its status
ecall
