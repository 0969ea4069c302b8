set remotetimeout 60
target remote | $BENCH gdb --process 2 --tape tape --symbols letters.elf letters.image
break child
continue
monitor calls
print letter
watch letter
continue
print letter
continue
monitor trace
reverse-continue
print letter
