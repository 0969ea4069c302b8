set remotetimeout 60
target remote | $BENCH gdb --symbols stars.elf stars.image
continue
print length
watch length
reverse-continue
print $count
x/i $pc
info registers t0 t1 count
set var $count = 0
frame 0
set var length = 8
