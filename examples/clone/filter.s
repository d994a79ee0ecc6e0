# Twice the number.
.text
.globl filter::of
filter::of: add a0,a0,a0
ret
