shader
inputs [w32x1]
outputs [w32x1]
buffers 0
{
  block b0 {
    %0 = input w32x1 @0
    %1 = const w32x1 (0)
    %2 = const w32x1 (1)
  }
  loop {
    block b1 {
      %3 = phi w32x1 [b0: %1, b4: %6]
      %4 = phi w32x1 [b0: %1, b4: %7]
      %5 = uge w1x1 %4, %0
    }
    if %5 {
      block b2 {
        break
      }
    } else {
      block b3 {
      }
    }
    block b4 {
      %6 = iadd w32x1 %3, %4
      %7 = iadd w32x1 %4, %2
    }
  }
  block b5 {
    output @0, %3
  }
}
