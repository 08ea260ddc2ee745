"""Designs of the tests: Verilog as users write it."""

COUNTER = """
module top(input clk, input rst, input go);
  reg [3:0] n = 0;
  always @(posedge clk) if (rst) n <= 0; else if (go) n <= n + 1;
`ifdef FORMAL
  always @(posedge clk) begin
    small: assert (n < LIMIT);
    three: cover (n == 3);
  end
`endif
endmodule
"""


def counter(limit):
    return COUNTER.replace("LIMIT", str(limit))


PARAMETER = """
module top #(parameter LIMIT = 3) (input clk);
  reg [3:0] n = 0;
  always @(posedge clk) n <= (n == 4) ? 0 : n + 1;
  always @(posedge clk) assert (n <= LIMIT);
endmodule
"""

FIFO = """
module fifo #(parameter N = 4) (input clk, input rst, input push, input pop, input [7:0] in, output [7:0] out);
  reg [7:0] mem [0:N-1];
  reg [2:0] count = 0;
  reg [1:0] rd = 0, wr = 0;
  assign out = mem[rd];
  always @(posedge clk)
    if (rst) begin count <= 0; rd <= 0; wr <= 0; end
    else begin
      if (push) begin mem[wr] <= in; wr <= wr + 1; end
      if (pop) rd <= rd + 1;
      count <= count + push - pop;
    end
`ifdef FORMAL
  reg started = 0;
  always @(posedge clk) begin
    started <= 1;
    if (!started) assume (rst);
`ifdef GUARD
    if (count == N) assume (!push);
    if (count == 0) assume (!pop);
`endif
    if (started) assert (count <= N);
    cover (count == 3);
  end
`endif
endmodule
"""

MEMORY = """
module top(input clk, input we, input [2:0] at, input [3:0] in, output [3:0] out);
  reg [3:0] words [0:7];
  reg [3:0] last = 0; reg [2:0] place = 0; reg written = 0;
  assign out = words[place];
  always @(posedge clk) if (we) begin words[at] <= in; last <= in; place <= at; written <= 1; end
  always @(posedge clk) if (written) assert (out == last BUG);
endmodule
"""

HIERARCHY = """
module half(input clk, input go, output reg [2:0] n);
  initial n = 0;
  always @(posedge clk) if (go) n <= n + 1;
endmodule
module top(input clk, input a, input b);
  wire [2:0] x, y;
  half left(.clk(clk), .go(a), .n(x));
  half right(.clk(clk), .go(b), .n(y));
  always @(posedge clk) assert (x + y != 5);
endmodule
"""

GENERATED = """
module top(input clk, input [1:0] go);
  genvar i;
  for (i = 0; i < 2; i = i + 1) begin : lane
    reg [1:0] n;
    always @(posedge clk) if (go[i]) n <= n + 1;
  end
  always @(posedge clk) assert (lane[0].n + lane[1].n != 5);
endmodule
"""

RESET = """
module top(input clk, input arst, input d);
  reg q = 0;
  always @(posedge clk or posedge arst) if (arst) q <= 0; else q <= d;
  always @(posedge clk) assert (!(arst && q));
endmodule
"""

CLOCKS = """
module top(input clk_a, input clk_b, input d);
  reg a = 0, b = 0, c = 0;
  always @(posedge clk_a) a <= d;
  always @(posedge clk_b) begin b <= a; c <= b; end
  always @* assert (!(c && !b && !a));
endmodule
"""

TRISTATE = """
module top(input clk, input en, input a, output y);
  wire bus;
  assign bus = en ? a : 1'bz;
  assign bus = !en ? !a : 1'bz;
  assign y = bus;
  always @(posedge clk) assert (y == (en ? a : !a));
endmodule
"""

BLACKBOX = """
(* blackbox *) module secret(input a, output y); endmodule
module top(input clk, input a);
  wire y;
  secret it(.a(a), .y(y));
  reg [1:0] seen = 0;
  always @(posedge clk) if (y && seen != 3) seen <= seen + 1;
  always @(posedge clk) assert (seen < 3);
endmodule
"""

FREE = """
module top(input clk);
  (* anyconst *) reg [3:0] target;
  (* anyseq *) reg step;
  reg [3:0] n = 0;
  always @(posedge clk) if (step) n <= n + 1;
  always @(posedge clk) if (target > 4) assert (n != target);
endmodule
"""

POWER = """
module top(input clk, input [2:0] a, input [2:0] b);
  reg [7:0] n = 1;
  always @(posedge clk) n <= a ** b;
  always @(posedge clk) assert (n != 255);
endmodule
"""

PLAIN = "module top(input clk, input d);\n  reg q = 0;\n  always @(posedge clk) q <= d;\nendmodule\n"

CONTRADICTION = """
module top(input clk, input d);
  reg [2:0] n = 0;
  always @(posedge clk) n <= n + 1;
  always @(posedge clk) begin assume (n != 4); assert (n != 6); end
endmodule
"""

DEEP = """
module top(input clk);
  reg [4:0] n = 0;
  always @(posedge clk) n <= (n == 20) ? 0 : n + 1;
  always @(posedge clk) assert (n != 25);
endmodule
"""

LATCH = """
module top(input clk, input en, input d);
  reg q;
  always @* if (en) q = d;
  always @(posedge clk) if (en) assert (q == d);
endmodule
"""

# A net with one driver has any value where that doesn't drive it.
LONE = """
module top(input clk, input en, input a, output y);
  assign y = en ? a : 1'bz;
  always @(posedge clk) assert (y == a);
endmodule
"""

INOUT = """
module top(input clk, input en, input [1:0] a, inout [1:0] bus);
  assign bus = en ? a : 2'bz;
  reg [1:0] seen = 0, last = 0;
  reg drove = 0;
  always @(posedge clk) begin seen <= bus; last <= a; drove <= en; end
  always @(posedge clk) assert (CLAIM);
endmodule
"""

# Two clocks, and a memory that the first of them writes.
CLOCK_MEMORY = """
module top(input clk_a, input clk_b, input we, input [1:0] at, input [3:0] in, output reg [3:0] out);
  reg [3:0] words [0:3];
  reg [3:0] last = 0;
  reg [1:0] place = 0;
  reg written = 0;
  always @(posedge clk_a) if (we) begin words[at] <= in; last <= in; place <= at; written <= 1; end
  always @(posedge clk_b) out <= words[place];
  always @* assert (!written || words[place] == last BUG);
endmodule
"""

LIVE = """
module top(input clk, input go);
  reg [1:0] n = 0;
  always @(posedge clk) if (go) n <= n + 1;
  assert property (eventually n == 3);
  always @(posedge clk) assert (n < 4);
endmodule
"""

HARD = """
module top(input clk, input [19:0] a, input [19:0] b);
  wire [39:0] left = (a + b + 40'd0) * (a + b + 40'd0);
  always @(posedge clk) assert (left == a * (a + 40'd0) + b * (b + 40'd0) + 2 * a * (b + 40'd0));
endmodule
"""

UNDRIVEN = """
module top(input clk);
  wire [1:0] loose;
  reg [1:0] n = 0;
  always @(posedge clk) n <= loose;
  always @(posedge clk) assert (n != 2);
endmodule
"""

MEETABLE = """
module top(input clk, input d);
  reg q = 0;
  always @(posedge clk) q <= d;
  always @(posedge clk) begin assume (!d); assert (!q); end
endmodule
"""

# Designs that sby refuses.
ALL_VALUES = """
module top(input clk, input [3:0] a);
  (* allconst *) reg [3:0] any;
  always @(posedge clk) assert (a != any);
endmodule
"""

ALL_CYCLES = ALL_VALUES.replace("allconst", "allseq")

UNSTARTED = """
module top(input clk, input d);
  reg q;
  always @(posedge clk) q <= d;
  always @(posedge clk) assert (q || !q);
endmodule
"""

STARTS_TWICE = """
module top(input clk, input d);
  reg q = 0;
  (* keep, init = 1 *) wire r;
  assign r = q;
  always @(posedge clk) q <= d;
  always @(posedge clk) assert (q == r);
endmodule
"""

# What no Yosys leaves of that: the text that sby refuses.
STARTS_TWICE_TEXT = """module \\top
  wire input 1 \\clk
  wire input 2 \\d
  attribute \\src "top.v:3.7-3.8"
  attribute \\init 1'0
  wire \\q
  attribute \\src "top.v:4.31-4.32"
  attribute \\init 1'1
  wire \\r
  attribute \\src "top.v:6.3-6.34"
  cell $dff $1
    parameter \\CLK_POLARITY 1
    parameter \\WIDTH 1
    connect \\CLK \\clk
    connect \\D \\d
    connect \\Q \\q
  end
  cell $assert \\same
    connect \\A \\r
    connect \\EN 1'1
  end
  connect \\r \\q
end
"""

LOOP = """
module top(input clk, input a, output y);
  wire b;
  assign b = y & a;
  assign y = b | a;
  always @(posedge clk) assert (y == a);
endmodule
"""

DRIVEN_TWICE = """
module top(input clk, input a, input b, output y);
  assign y = a & b;
  assign y = a | b;
  always @(posedge clk) assert (y == a);
endmodule
"""

WIDE = """
module top(input clk, input [128:0] a, input [128:0] b);
  always @(posedge clk) assert (a + b != 5);
endmodule
"""

EMPTY = "module top();\nendmodule\n"

NO_MODULE_OF = """
module top(input clk, input a);
  wire y;
  secret it(.a(a), .y(y));
  always @(posedge clk) assert (y);
endmodule
"""
