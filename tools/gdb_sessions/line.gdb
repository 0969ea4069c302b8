set remotetimeout 60
target remote | $BENCH gdb --symbols line.elf line.image
break square if n == 3
continue
backtrace
finish
delete
continue
monitor calls
print line.length
watch line.length
reverse-continue
backtrace
print i
delete
reverse-finish
monitor until 200
set var $count = 100
continue
print $count
break main
reverse-continue
