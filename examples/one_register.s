# One register through straight code. The words stand at 0x10078 and 0x1007c.
    addi a0,zero,5
    ebreak
