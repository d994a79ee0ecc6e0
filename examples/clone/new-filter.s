# The number times itself.
.text
.globl filter::of
filter::of: mul a0,a0,a0
ret
