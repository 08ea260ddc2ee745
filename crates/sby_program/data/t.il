module \t
  wire input 1 \clk
  attribute \init 1'0
  wire \q
  wire \d
  cell $not $n
    parameter \A_SIGNED 0
    parameter \A_WIDTH 1
    parameter \Y_WIDTH 1
    connect \A \q
    connect \Y \d
  end
  cell $dff $r
    parameter \CLK_POLARITY 1'1
    parameter \WIDTH 1
    connect \CLK \clk
    connect \D \d
    connect \Q \q
  end
  cell $assert \a0
    connect \A \d
    connect \EN 1'1
  end
end
