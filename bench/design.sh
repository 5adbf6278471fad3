#!/usr/bin/env bash
# Prints large designs, their constraints, and hostile texts.
#   design.sh channels N     N handshake channels of 8 bits each, those of `selftest N`
#   design.sh blocks N       N blocks, each with a pipeline of 32 bits, a decoder, a Gray-coded counter and a channel
#   design.sh chip N         N tiles: such a block with a checksum of what it received
#   design.sh gates N        N gates and flops of one bit in one module, as synthesis writes them; each crossing has two flops
#   design.sh fifos N        N FIFOs of 16 words of 32 bits, each with a register that takes the words
#   design.sh no_fifos N     the same with pops that aren't gated: each read is V1
#   design.sh doublings      a wire that is the exclusive or of the one before with itself, 64 times over, in trees of 2^64 leaves
#   design.sh handshake      a handshake that carries two bits, 10 register bits in all
#   design.sh record N       a record of N steps of it, or of channels, in each of which both clocks tick
#   design.sh testbench N    a module that drives channels or FIFOs for N steps: which clocks tick, and the inputs, are drawn as in a campaign
#   design.sh constraints    two clocks, and the inputs `send` and `d`
#   design.sh hostile KIND   a netlist that asks for trouble, of 256 MiB or a million of something: see below
#   design.sh waivers N      the constraints with N waivers by patterns, and `many_inputs N` with N inputs
set -eu

channels() {
    awk -v n="$1" 'BEGIN {
        print "module m(input ca, cb, send, input [7:0] d);"
        for (i = 0; i < n; i++) {
            p = 2 + i % 3
            printf "reg r%d = 0; reg t%d = 0; reg [7:0] a%d; reg [7:0] x%d;", i, i, i, i
            for (j = 1; j <= p; j++) printf " reg s%d_%d = 0; reg k%d_%d = 0;", i, j, i, j
            printf "\nalways @(posedge ca) begin k%d_1 <= t%d;", i, i
            for (j = 2; j <= p; j++) printf " k%d_%d <= k%d_%d;", i, j, i, j - 1
            printf "\n  if (send && r%d == k%d_%d) begin r%d <= ~r%d; a%d <= d; end\nend\n", i, i, p, i, i, i
            printf "always @(posedge cb) begin s%d_1 <= r%d;", i, i
            for (j = 2; j <= p; j++) printf " s%d_%d <= s%d_%d;", i, j, i, j - 1
            printf " t%d <= s%d_%d;\n  if (s%d_%d != t%d) x%d <= a%d;\nend\n", i, i, p, i, p, i, i, i
        }
        print "endmodule"
    }'
}

parts() {
    cat <<'V'
module channel(input ca, cb, put, input [31:0] d, output ready, output reg [31:0] q, output take);
  reg req = 0, k1 = 0, k2 = 0, s1 = 0, s2 = 0, ack = 0; reg [31:0] hold;
  assign ready = req == k2;
  assign take = s2 != ack;
  always @(posedge ca) begin
    k1 <= ack; k2 <= k1;
    if (put && ready) begin req <= ~req; hold <= d; end
  end
  always @(posedge cb) begin s1 <= req; s2 <= s1; ack <= s2; if (take) q <= hold; end
endmodule
module position(input ca, cb, step, output [7:0] seen);
  reg [7:0] count = 0, code = 0, m, s;
  wire [7:0] next = count + step;
  always @(posedge ca) begin count <= next; code <= next ^ (next >> 1); end
  always @(posedge cb) begin m <= code; s <= m; end
  assign seen = s;
endmodule
module pipeline(input c, step, input [1:0] mode, input [31:0] x, output [31:0] y);
  reg [31:0] p0, p1, p2;
  always @(posedge c) if (step) begin
    p0 <= x;
    case (mode)
      2'd0: begin p1 <= p0 + p2; p2 <= p1 ^ x; end
      2'd1: begin p1 <= {p0[15:0], p0[31:16]}; p2 <= p1 & ~p0; end
      2'd2: begin p1 <= p0 < p2 ? p0 : p2; p2 <= p1 - p0; end
      default: begin p1 <= p0 ^ {4{p0[7:0]}}; p2 <= p2 == p1 ? p0 : p2; end
    endcase
  end
  assign y = p2;
endmodule
module decoder(input c, write, input [2:0] at, input [31:0] x, output reg [31:0] y);
  reg [31:0] word [0:7];
  always @(posedge c) begin if (write) word[at] <= x; y <= word[at]; end
endmodule
module block(input ca, cb, step, input [31:0] x, output [31:0] y);
  wire [31:0] kept, sent; wire ready, take; wire [7:0] seen;
  decoder u_decoder(ca, step, x[2:0], x, kept);
  channel u_channel(ca, cb, step, kept, ready, sent, take);
  position u_position(ca, cb, ready, seen);
  pipeline u_pipeline(cb, take, sent[1:0], sent, y);
endmodule
V
}

blocks() {
    parts
    awk -v n="$1" 'BEGIN {
        print "module m(input ca, cb, send, input [7:0] d);"
        for (i = 0; i < n; i++) printf "wire [31:0] y%d; block b%d(ca, cb, send, {4{d}}, y%d);\n", i, i, i
        print "endmodule"
    }'
}

chip() {
    parts
    cat <<'V'
module checksum(input c, step, input [4:0] x, output reg [15:0] sum);
  wire [15:0] s0 = sum ^ {x, 11'd0};
  wire [15:0] s1 = {s0[14:0], 1'b0} ^ (s0[15] ? 16'h1021 : 16'd0);
  wire [15:0] s2 = {s1[14:0], 1'b0} ^ (s1[15] ? 16'h1021 : 16'd0);
  wire [15:0] s3 = {s2[14:0], 1'b0} ^ (s2[15] ? 16'h1021 : 16'd0);
  wire [15:0] s4 = {s3[14:0], 1'b0} ^ (s3[15] ? 16'h1021 : 16'd0);
  wire [15:0] s5 = {s4[14:0], 1'b0} ^ (s4[15] ? 16'h1021 : 16'd0);
  always @(posedge c) if (step) sum <= s5;
endmodule
module tile(input ca, cb, step, input [31:0] x, output [31:0] y);
  wire [15:0] sum;
  block u_block(ca, cb, step, x, y);
  checksum u_checksum(cb, y[0], y[12:8], sum);
endmodule
V
    awk -v n="$1" 'BEGIN {
        print "module m(input ca, cb, send, input [7:0] d);"
        for (i = 0; i < n; i++) printf "wire [31:0] y%d; tile t%d(ca, cb, send, {4{d}}, y%d);\n", i, i, i
        print "endmodule"
    }'
}

doublings() {
    awk 'BEGIN {
        print "module m(input ca, cb, send, input [7:0] d);\nreg a, x;\nalways @(posedge ca) a <= send;\nwire w1 = a ^ a;"
        for (i = 2; i <= 64; i++) printf "wire w%d = w%d ^ w%d;\n", i, i - 1, i - 1
        print "always @(posedge cb) x <= w64;\nendmodule"
    }'
}

handshake() {
    cat <<'V'
module m(input ca, cb, send, input [1:0] d, output [1:0] q);
reg req = 0, k1 = 0, k2 = 0; reg [1:0] data;
reg s1 = 0, s2 = 0, s3 = 0; reg [1:0] x;
always @(posedge ca) begin
  k1 <= s3; k2 <= k1;
  if (send && req == k2) begin req <= ~req; data <= d; end
end
always @(posedge cb) begin
  s1 <= req; s2 <= s1; s3 <= s2;
  if (s2 != s3) x <= data;
end
assign q = x;
endmodule
V
}

# Each FIFO is an instance of one module: Gray pointers through two flops, flags that are registers, a memory of 512 bits.
fifos() {
    cat <<'V'
module fifo(input ca, cb, push, pop, input [31:0] d, output reg [31:0] q);
  reg [31:0] mem [0:15];
  reg [4:0] wbin = 0, wgray = 0, rgray_m = 0, rgray_s = 0, rbin = 0, rgray = 0, wgray_m = 0, wgray_s = 0;
  reg full = 0, empty = 1;
  wire [4:0] wbin_next = wbin + (push & ~full);
  wire [4:0] wgray_next = wbin_next ^ (wbin_next >> 1);
  wire [4:0] rbin_next = rbin + (pop & ~empty);
  wire [4:0] rgray_next = rbin_next ^ (rbin_next >> 1);
  always @(posedge ca) begin
    {wbin, wgray, rgray_s, rgray_m} <= {wbin_next, wgray_next, rgray_m, rgray};
    full <= wgray_next == {~rgray_s[4:3], rgray_s[2:0]};
    if (push && !full) mem[wbin[3:0]] <= d;
  end
  always @(posedge cb) begin
    {rbin, rgray, wgray_s, wgray_m} <= {rbin_next, rgray_next, wgray_m, wgray};
    empty <= rgray_next == wgray_s;
    if (pop && !empty) q <= mem[rbin[3:0]];
  end
endmodule
V
    awk -v n="$1" 'BEGIN {
        print "module m(input ca, cb, send, input [7:0] d);"
        print "reg pop = 0; reg [31:0] word = 0;"
        print "always @(posedge cb) pop <= ~pop;"
        print "always @(posedge ca) word <= {word[23:0], d};"
        for (i = 0; i < n; i++) printf "wire [31:0] q%d; fifo u%d(ca, cb, send, pop, word ^ 32\047d%d, q%d);\n", i, i, i, i
        print "endmodule"
    }'
}

# The same with a pop that isn't gated, so that none of them is recognised.
no_fifos() {
    fifos "$1" | sed -e 's/ & ~empty//' -e 's/ && !empty//'
}

testbench() {
    cat <<V
module bench;
  reg ca = 0, cb = 0, send = 0;
  reg [7:0] d = 0;
  reg [1:0] ticks;
  integer step;
  m chip(ca, cb, send, d);
  initial begin
    for (step = 1; step <= $1; step = step + 1) begin
      ticks = step % 4 == 0 ? 2'd3 : \$urandom;
      if (ticks == 0) ticks = 1;
      {cb, ca} = ticks;
      #1 if (ticks[0]) begin send = \$urandom; d = \$urandom; end
      {cb, ca} = 0;
      #1;
    end
    \$finish;
  end
endmodule
V
}

record() {
    awk -v n="$1" 'BEGIN {
        printf "{\"start\":{\"send\":1},\"steps\":["
        for (i = 0; i < n; i++) printf "%s{\"edges\":[\"ca\",\"cb\"],\"inputs\":{\"d\":%d}}", i ? "," : "", i % 4
        print "]}"
    }'
}

# Groups of nine gates and a flop, the first half of them on `ca` and the second on `cb`: each gate reads the one before it and a flop
# of the 50 groups before. Each hundredth group of the second half brings a flop of the first over, by two flops in place of two gates.
gates() {
    awk -v n="$1" 'function flop(group, first) {
        seed = seed * 16807 % 2147483647
        group -= 1 + seed % 50
        if (group < first) return first ? "toggle" : "send"
        return sprintf("_%08d_", 10 * group + 9)
    }
    function register(clock, name, value) { printf "reg %s;\nalways @(posedge %s) %s <= %s;\n", name, clock, name, value }
    BEGIN {
        seed = 1
        split("& | ^ &", signs, " ")
        print "module m(input ca, cb, send, input [7:0] d);"
        register("cb", "toggle", "~toggle")
        half = int(n / 20)
        for (group = 0; group < 2 * half; group++) {
            first = group < half ? 0 : half
            clock = first ? "cb" : "ca"
            over = first && group % 100 == 0
            last = flop(group, first)
            for (k = 0; k < 9; k++) {
                name = sprintf("_%08d_", 10 * group + k)
                if (over && k == 7) { sum = last; register(clock, name, sprintf("_%08d_", 10 * (group - half) + 9)) }
                else if (over && k == 8) { register(clock, name, last); name = name " & " sum }
                else printf "wire %s;\nassign %s = %s %s %s;\n", name, name, last, signs[k % 4 + 1], flop(group, first)
                last = name
            }
            register(clock, sprintf("_%08d_", 10 * group + 9), last)
        }
        print "endmodule"
    }'
}

bytes() {
    head -c "$1" /dev/zero | tr '\0' "$2"
}

# identifier, parentheses, comment and spaces have 256 MiB; ports 20 million names; labels a `case` of a million; drivers 10 million
# assignments to one wire; wires a chain of a million, each read before it is driven; deep 10,000 instances, each in the one before
hostile() {
    case $1 in
        identifier) printf 'module m(input ca); wire ' && bytes 268435400 a ;;
        parentheses) printf 'module m(input ca, output q); assign q = ' && bytes 268435400 '(' ;;
        comment) printf '/*' && bytes 268435400 x ;;
        spaces) bytes 268435456 ' ' ;;
        ports) awk 'BEGIN { printf "module m(p"; for (i = 1; i < 2e7; i++) printf ",p%d", i; print "); endmodule" }' ;;
        labels) awk 'BEGIN { print "module m(input ca, cb, send, input [19:0] d, output reg q); always @(posedge ca) case (d)"
            for (i = 0; i < 1e6; i++) printf "20\047d%d: q <= 1;\n", i; print "endcase endmodule" }' ;;
        drivers) awk 'BEGIN { print "module m(input ca, d); wire w;"; for (i = 0; i < 1e7; i++) print "assign w=d;"; print "endmodule" }' ;;
        wires) awk 'BEGIN { print "module m(input ca, cb, send, input [7:0] d, output q);"; for (i = 0; i < 1e6; i++) printf "wire w%d;\n", i
            for (i = 0; i < 1e6 - 1; i++) printf "assign w%d = ~w%d;\n", i, i + 1; print "assign w999999 = send; assign q = w0; endmodule" }' ;;
        deep) awk 'BEGIN { for (i = 0; i < 10000; i++) printf "module m%d(input a, output b); m%d u(a, b); endmodule\n", i, i + 1
            print "module m10000(input a, output b); assign b = a; endmodule"
            print "module m(input ca, cb, send, input [7:0] d, output q); m0 u(send, q); endmodule" }' ;;
        inputs) awk 'BEGIN { printf "module m(input ca"; for (i = 0; i < 1e6; i++) printf ",i%d", i; print "); endmodule" }' ;;
    esac
}

many_inputs() {
    awk -v n="$1" 'BEGIN { printf "top = \"m\"\n[[clock]]\nname = \"ca\"\ngroup = \"A\"\n"
        for (i = 0; i < n; i++) printf "[[input]]\nname = \"i%d\"\nclock = \"ca\"\n", i }'
}

waivers() {
    constraints
    awk -v n="$1" 'BEGIN { for (i = 0; i < n; i++) printf "[[waive]]\nfinding = \"V1 a%d* -> *: no scheme\"\nreason = \"r\"\n", i }'
}

constraints() {
    printf 'top = "m"\n'
    printf '[[clock]]\nname = "%s"\ngroup = "%s"\n' ca A cb B
    printf '[[input]]\nname = "%s"\nclock = "ca"\n' send d
}

"$@"
