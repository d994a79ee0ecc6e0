.text
.globl filter::twice
filter::twice: add a0,a0,a0
ret
