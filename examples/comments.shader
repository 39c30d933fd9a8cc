# The shader of add_zero.shader in a free layout: it is printed in the canonical one.
shader inputs [w8x1] outputs [w8x1] buffers 0 {
block start {
%given = input w8x1 @0       # names are words of letters, digits and _
%nothing=const w8x1(0x00)    # numbers are decimal or hexadecimal
        %sum = iadd w8x1
               %given,
               %nothing
output @0, %sum } }
