shader
inputs []
outputs []
buffers 0
{
  block b0 {
  }
}
