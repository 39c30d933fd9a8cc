shader
inputs [w8x1]
outputs [w8x1]
buffers 0
{
  block b0 {
    %0 = input w8x1 @0
    %1 = const w8x1 (0)
    %2 = const w8x1 (1)
  }
  loop {
    block b1 {
      %3 = phi w8x1 [b0: %1, b4: %7]
      %4 = phi w8x1 [b0: %1, b4: %8]
      %5 = uge w1x1 %4, %0
    }
    if %5 {
      block b2 {
        break
      }
    } else {
      block b3 {
      }
    }
    block b4 {
      %6 = iadd w8x1 %4, %1
      %7 = iadd w8x1 %3, %6
      %8 = iadd w8x1 %4, %2
    }
  }
  block b5 {
    output @0, %3
  }
}
